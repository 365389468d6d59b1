//! The errors that document 01 says come easily, and their neighbours.

mod common;

use common::{memory, step_on, IE, IF};
use second::{step, Ime, Mode, State};

fn flags_after(code: &[u8], before: State) -> u8 {
    step_on(code, before).state.f
}

#[test]
fn short_rotates_clear_z_and_prefixed_ones_set_it() {
    let zero = State {
        f: 0x80,
        ..State::default()
    };
    for code in [0x07, 0x0F, 0x17, 0x1F] {
        assert_eq!(flags_after(&[code], zero), 0x00, "{code:02X}");
        assert_eq!(flags_after(&[0xCB, code], zero), 0x80, "CB {code:02X}");
    }
}

#[test]
fn sums_with_sp_clear_z() {
    let before = State {
        f: 0xF0,
        ..State::default()
    };
    assert_eq!(flags_after(&[0xE8, 0x00], before), 0x00);
    assert_eq!(flags_after(&[0xF8, 0x00], before), 0x00);
}

#[test]
fn daa_after_subtraction_ignores_the_digits() {
    let before = State {
        a: 0xAB,
        f: 0x40,
        ..State::default()
    };
    let after = step_on(&[0x27], before).state;
    assert_eq!((after.a, after.f), (0xAB, 0x40));
}

#[test]
fn ei_then_di_lets_no_interrupt_in() {
    let mut memory = memory(&[(0, &[0xFB, 0xF3, 0x00]), (IE, &[0x1F]), (IF, &[0x1F])]);
    let mut state = State::default();
    let switches: Vec<Ime> = (0..3)
        .map(|_| {
            state = step(state, &mut memory).state;
            state.ime
        })
        .collect();
    assert_eq!(switches, [Ime::Arming, Ime::Off, Ime::Off]);
    assert_eq!(state.pc, 3);
    assert_eq!(memory[usize::from(IF)], 0x1F);
}

#[test]
fn a_jump_in_repeat_lands_from_where_its_bytes_end() {
    let before = State {
        pc: 0x0200,
        mode: Mode::Repeat,
        ..State::default()
    };
    // JR takes its own opcode byte for the offset, and ends at $0201.
    let relative = step_on(&[0x18, 0x05], before);
    assert_eq!(relative.state.pc, 0x0219);
    assert_eq!(relative.state.mode, Mode::Running);
    // JP takes $C3 and the byte after it for the address.
    assert_eq!(step_on(&[0xC3, 0x12, 0x34], before).state.pc, 0x12C3);
}

#[test]
fn a_call_in_repeat_returns_to_where_its_bytes_end() {
    let before = State {
        pc: 0x0200,
        sp: 0xD000,
        mode: Mode::Repeat,
        ..State::default()
    };
    let mut memory = memory(&[(0x0200, &[0xCD, 0x12])]);
    let after = step(before, &mut memory).state;
    assert_eq!((after.pc, after.sp), (0x12CD, 0xCFFE));
    assert_eq!(memory[0xCFFE..0xD000], [0x02, 0x02]);
}

#[test]
fn the_prefix_in_repeat_is_its_own_second_byte() {
    let before = State {
        mode: Mode::Repeat,
        ..State::default()
    };
    // $CB $CB is SET 1,E.
    let stepped = step_on(&[0xCB, 0x00], before);
    let after = State {
        e: 0x02,
        pc: 1,
        ..State::default()
    };
    assert_eq!((stepped.state, stepped.cycles), (after, 2));
}
