//! The twelve cases of document 01 and its adding routine.

mod common;

use common::{changed, memory, step_on, IE, IF};
use second::{run, step, Ime, State};

fn with_af(a: u8, f: u8) -> State {
    State {
        a,
        f,
        pc: 0x0200,
        ..State::default()
    }
}

/// A and F after one instruction.
fn af_after(code: &[u8], before: State) -> (u8, u8) {
    let stepped = step_on(code, before);
    assert_eq!(stepped.code, 0);
    (stepped.state.a, stepped.state.f)
}

#[test]
fn case_1_add() {
    assert_eq!(af_after(&[0xC6, 0xC6], with_af(0x3A, 0)), (0x00, 0xB0));
}

#[test]
fn case_2_adc() {
    assert_eq!(af_after(&[0xCE, 0x00], with_af(0x0F, 0x10)), (0x10, 0x20));
}

#[test]
fn case_3_sub() {
    assert_eq!(af_after(&[0xD6, 0x01], with_af(0x00, 0)), (0xFF, 0x70));
}

#[test]
fn case_4_sbc() {
    assert_eq!(af_after(&[0xDE, 0x2A], with_af(0x3B, 0x10)), (0x10, 0x40));
}

#[test]
fn case_5_inc() {
    assert_eq!(af_after(&[0x3C], with_af(0xFF, 0x10)), (0x00, 0xB0));
}

#[test]
fn case_6_add_hl() {
    let before = State {
        h: 0x8A,
        l: 0x23,
        b: 0x06,
        c: 0x05,
        ..with_af(0, 0x80)
    };
    let after = step_on(&[0x09], before).state;
    assert_eq!((after.hl(), after.f), (0x9028, 0xA0));
}

#[test]
fn case_7_add_sp() {
    let before = State {
        sp: 1,
        ..with_af(0, 0)
    };
    let after = step_on(&[0xE8, 0xFF], before).state;
    assert_eq!((after.sp, after.f), (0x0000, 0x30));
}

#[test]
fn case_8_daa_after_addition() {
    assert_eq!(af_after(&[0x27], with_af(0x9A, 0x00)), (0x00, 0x90));
}

#[test]
fn case_9_daa_after_subtraction() {
    assert_eq!(af_after(&[0x27], with_af(0xFF, 0x70)), (0x99, 0x50));
}

#[test]
fn case_10_pop_af() {
    let before = State {
        sp: 0xC000,
        ..with_af(0, 0)
    };
    let mut memory = memory(&[(0x0200, &[0xF1]), (0xC000, &[0xFF, 0x12])]);
    let after = step(before, &mut memory).state;
    assert_eq!((after.a, after.f, after.sp), (0x12, 0xF0, 0xC002));
}

#[test]
fn case_11_jr_across_the_end() {
    let before = State {
        pc: 0xFFFE,
        ..State::default()
    };
    let stepped = step_on(&[0x18, 0x02], before);
    assert_eq!((stepped.state.pc, stepped.cycles), (0x0002, 3));
}

#[test]
fn case_12_dispatch() {
    let before = State {
        pc: 0xC123,
        sp: 0xFFFE,
        ime: Ime::On,
        ..State::default()
    };
    let start = memory(&[(IE, &[0x05]), (IF, &[0x06])]);
    let mut memory = start.clone();
    let stepped = step(before, &mut memory);
    let after = State {
        pc: 0x0050,
        sp: 0xFFFC,
        ime: Ime::Off,
        ..before
    };
    assert_eq!((stepped.code, stepped.cycles, stepped.state), (0, 5, after));
    assert_eq!(memory[usize::from(IF)], 0x02);
    assert_eq!(memory[0xFFFC..0xFFFE], [0x23, 0xC1]);
    assert_eq!(changed(&start, &memory), [IF, 0xFFFC, 0xFFFD]);
}

const ADDING: [u8; 10] = [0xA7, 0x1A, 0x8E, 0x27, 0x22, 0x13, 0x05, 0x20, 0xF8, 0xC9];

/// Adds `source` to `destination` and checks everything that demand 3 names.
fn check_adding(destination: &[u8], source: &[u8], sum: &[u8], overflows: bool) {
    let n = destination.len();
    let start = memory(&[
        (0x0150, &ADDING),
        (0xC000, destination),
        (0xC100, source),
        (0xDFFE, &[0x34, 0x12]),
    ]);
    let before = State {
        b: n as u8,
        d: 0xC1,
        h: 0xC0,
        sp: 0xDFFE,
        pc: 0x0150,
        ..State::default()
    };
    let mut memory = start.clone();
    let ran = run(before, &mut memory, 13 * n as u32 + 4);
    let after = State {
        a: sum[n - 1],
        f: if overflows { 0xD0 } else { 0xC0 },
        b: 0,
        sp: 0xE000,
        pc: 0x1234,
        ..before
    };
    assert_eq!(ran.code, 0);
    assert_eq!(ran.steps, 7 * n as u32 + 2);
    assert_eq!(ran.spent, 13 * n as u32 + 4);
    assert_eq!(ran.state.hl(), 0xC000 + n as u16);
    assert_eq!(ran.state.de(), 0xC100 + n as u16);
    let pairs_back = State {
        h: before.h,
        l: before.l,
        d: before.d,
        e: before.e,
        ..ran.state
    };
    assert_eq!(pairs_back, after);
    assert_eq!(memory[0xC000..0xC000 + n], *sum);
    assert_eq!(memory[..0xC000], start[..0xC000]);
    assert_eq!(memory[0xC000 + n..], start[0xC000 + n..]);
}

#[test]
fn the_routine_adds_at_every_length() {
    for n in 1..=256 {
        let mut one = vec![0x00; n];
        one[0] = 0x01;
        check_adding(&vec![0x99; n], &one, &vec![0x00; n], true);
        let doubled = [vec![0x90], vec![0x91; n - 1]].concat();
        check_adding(&vec![0x95; n], &vec![0x95; n], &doubled, true);
        check_adding(&vec![0x12; n], &vec![0x39; n], &vec![0x51; n], false);
    }
}

#[test]
fn the_routine_doubles_where_source_is_destination() {
    let before = State {
        b: 2,
        d: 0xC0,
        h: 0xC0,
        sp: 0xDFFE,
        pc: 0x0150,
        ..State::default()
    };
    let mut memory = memory(&[(0x0150, &ADDING), (0xC000, &[0x75, 0x48])]);
    let ran = run(before, &mut memory, 30);
    assert_eq!((ran.code, ran.steps), (0, 16));
    assert_eq!(memory[0xC000..0xC002], [0x50, 0x97]);
    assert_eq!((ran.state.a, ran.state.f), (0x97, 0xC0));
}
