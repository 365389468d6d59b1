//! Heads and images: their form, their refusals, and there and back again.

use second::{load_head, open_image, save_head, save_image, Ime, Mode, State};

const SAVED: State = State {
    a: 0x0A,
    f: 0xF0,
    b: 0x0B,
    c: 0x0C,
    d: 0x0D,
    e: 0x0E,
    h: 0x11,
    l: 0x12,
    sp: 0x1314,
    pc: 0x1516,
    ime: Ime::On,
    mode: Mode::Halted,
};

/// The head of [`SAVED`], laid out by document 01.
const HEAD: [u8; 23] = [
    1, 0, 0, 0, 14, 0x0A, 0xF0, 0x0B, 0x0C, 0x0D, 0x0E, 0x11, 0x12, 0x13, 0x14, 0x15, 0x16, 2, 2,
    0, 1, 0, 0,
];

/// HEAD with a memory in which neighbours differ.
fn image() -> Vec<u8> {
    let memory = (0..65_536_u32).map(|address| (address * 7 + 3) as u8);
    HEAD.into_iter().chain(memory).collect()
}

/// HEAD with some bytes changed.
fn head_with(changes: &[(usize, u8)]) -> [u8; 23] {
    let mut head = HEAD;
    for &(index, byte) in changes {
        head[index] = byte;
    }
    head
}

/// The code for a head, which an image with that head must share.
fn code_of(head: [u8; 23]) -> u8 {
    let (code, state) = load_head(&head);
    let mut whole = image();
    whole[..23].copy_from_slice(&head);
    let (image_code, image_state, memory) = open_image(&whole);
    assert_eq!((code, state), (image_code, image_state));
    if code == 0 {
        assert_eq!(memory, &whole[23..]);
    } else {
        assert_eq!((state, memory), (State::default(), &[][..]));
    }
    code
}

#[test]
fn a_head_is_laid_out_as_document_01_says() {
    let mut head = [0xEE; 23];
    assert_eq!(save_head(SAVED, &mut head), 0);
    assert_eq!(head, HEAD);
    assert_eq!(load_head(&HEAD), (0, SAVED));
}

#[test]
fn an_image_is_the_head_and_the_memory() {
    let whole = image();
    assert_eq!(open_image(&whole), (0, SAVED, &whole[23..]));
    let mut written = vec![0xEE; 65_559];
    assert_eq!(save_image(SAVED, &whole[23..], &mut written), 0);
    assert_eq!(written, whole);
}

#[test]
fn loading_refuses_in_the_order_6_7_8_9_2() {
    let all_wrong = head_with(&[(0, 2), (4, 15), (6, 0x01), (17, 3), (18, 4), (22, 1)]);
    assert_eq!(load_head(&all_wrong[..22]), (6, State::default()));
    assert_eq!(code_of(all_wrong), 7);
    assert_eq!(code_of(head_with(&[(4, 15), (6, 1), (17, 3)])), 8);
    assert_eq!(code_of(head_with(&[(22, 1), (6, 1), (18, 4)])), 8);
    assert_eq!(code_of(head_with(&[(6, 1), (17, 3)])), 9);
    assert_eq!(code_of(head_with(&[(6, 1), (18, 4)])), 9);
    assert_eq!(code_of(head_with(&[(6, 1)])), 2);
}

/// What document 01 says of a head that differs from a good one in one byte.
fn expected(index: usize, byte: u8) -> u8 {
    match index {
        0 if byte != 1 => 7,
        1..=4 | 19..=22 if byte != HEAD[index] => 8,
        6 if byte & 0x0F != 0 => 2,
        17 if byte > 2 => 9,
        18 if byte > 3 => 9,
        _ => 0,
    }
}

#[test]
fn every_byte_of_a_head_at_every_value() {
    for index in 0..23 {
        for byte in 0x00..=0xFF {
            let head = head_with(&[(index, byte)]);
            let code = expected(index, byte);
            assert_eq!(code_of(head), code, "byte {index} is {byte}");
            if code == 0 {
                let mut again = [0; 23];
                assert_eq!(save_head(load_head(&head).1, &mut again), 0);
                assert_eq!(again, head);
            }
        }
    }
}

#[test]
fn lengths_one_off_are_refused_with_6() {
    let mut longer = image();
    longer.push(0);
    for length in [0, 22, 24, 65_558, 65_560] {
        let part = &longer[..length];
        assert_eq!(load_head(part), (6, State::default()));
        assert_eq!(open_image(part), (6, State::default(), &[][..]));
    }
    assert_eq!(open_image(&longer[..23]).0, 6);
    assert_eq!(load_head(&longer[..65_559]).0, 6);
}

#[test]
fn saving_a_head_refuses_in_the_order_6_2() {
    let invalid = State { f: 0x08, ..SAVED };
    for (length, code) in [(22, 6), (24, 6), (23, 2)] {
        let mut head = vec![0xEE; length];
        assert_eq!(save_head(invalid, &mut head), code);
        assert_eq!(head, vec![0xEE; length]);
    }
}

#[test]
fn saving_an_image_refuses_in_the_order_6_1_2() {
    let invalid = State { f: 0x08, ..SAVED };
    let lengths = [
        (65_558, 65_535, 6),
        (65_560, 65_537, 6),
        (65_559, 65_535, 1),
        (65_559, 65_537, 1),
        (65_559, 65_536, 2),
    ];
    for (length, memory, code) in lengths {
        let mut image = vec![0xEE; length];
        assert_eq!(save_image(invalid, &vec![0; memory], &mut image), code);
        assert_eq!(image, vec![0xEE; length]);
    }
}

#[test]
fn every_switch_and_mode_comes_back() {
    for ime in [Ime::Off, Ime::Arming, Ime::On] {
        for mode in [Mode::Running, Mode::Repeat, Mode::Halted, Mode::Stopped] {
            let state = State { ime, mode, ..SAVED };
            let mut head = [0; 23];
            assert_eq!(save_head(state, &mut head), 0);
            assert_eq!(load_head(&head), (0, state));
        }
    }
}
