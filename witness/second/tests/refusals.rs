//! When a step or a run refuses, in which order, and that nothing changes.

mod common;

use common::{memory, IE, IF};
use second::{run, step, Ime, Mode, Ran, State, Stepped};

const UNDEFINED: [u8; 11] = [
    0xD3, 0xDB, 0xDD, 0xE3, 0xE4, 0xEB, 0xEC, 0xED, 0xF4, 0xFC, 0xFD,
];

/// A step is refused with `code` and leaves state and memory as they were.
fn refuses(code: u8, state: State, memory: &[u8]) {
    let mut after = memory.to_vec();
    let answer = Stepped {
        code,
        cycles: 0,
        state,
    };
    assert_eq!(step(state, &mut after), answer);
    assert_eq!(after, memory);
}

/// A run is refused with `code` before its first step.
fn does_not_begin(code: u8, state: State, memory: &[u8], budget: u32) {
    let mut after = memory.to_vec();
    let answer = Ran {
        code,
        spent: 0,
        steps: 0,
        state,
    };
    assert_eq!(run(state, &mut after, budget), answer);
    assert_eq!(after, memory);
}

fn with(f: u8, mode: Mode) -> State {
    State {
        f,
        mode,
        ..State::default()
    }
}

#[test]
fn a_step_refuses_in_the_order_1_2_3_4() {
    let undefined = memory(&[(0, &[0xD3])]);
    for length in [0, 1, 65_535, 65_537] {
        let mut wrong = undefined.clone();
        wrong.resize(length, 0);
        refuses(1, with(0x0F, Mode::Stopped), &wrong);
    }
    for f in (0x00..=0xFF).filter(|f| f & 0x0F != 0) {
        refuses(2, with(f, Mode::Stopped), &undefined);
        refuses(2, with(f, Mode::Running), &undefined);
    }
    refuses(3, with(0xF0, Mode::Stopped), &undefined);
    refuses(4, with(0xF0, Mode::Running), &undefined);
}

#[test]
fn stopped_refuses_even_when_a_dispatch_is_due() {
    let requested = memory(&[(IE, &[0x1F]), (IF, &[0x1F])]);
    let state = State {
        ime: Ime::On,
        ..with(0, Mode::Stopped)
    };
    refuses(3, state, &requested);
}

#[test]
fn exactly_the_undefined_bytes_refuse_with_4() {
    for opcode in 0x00..=0xFF {
        for mode in [Mode::Running, Mode::Repeat] {
            let code = if UNDEFINED.contains(&opcode) { 4 } else { 0 };
            let mut memory = memory(&[(0, &[opcode])]);
            let stepped = step(with(0, mode), &mut memory);
            assert_eq!(stepped.code, code, "{opcode:02X} in {mode:?}");
        }
    }
}

#[test]
fn an_undefined_byte_changes_nothing_under_any_switch() {
    for opcode in UNDEFINED {
        let memory = memory(&[(0x1234, &[opcode]), (IF, &[0x1F])]);
        for ime in [Ime::Off, Ime::Arming, Ime::On] {
            let state = State {
                a: 0x12,
                pc: 0x1234,
                ime,
                ..with(0xA0, Mode::Repeat)
            };
            refuses(4, state, &memory);
        }
    }
}

#[test]
fn an_undefined_byte_is_not_run_when_a_dispatch_is_due() {
    let mut memory = memory(&[(0, &[0xD3]), (IE, &[0x01]), (IF, &[0x01])]);
    let state = State {
        sp: 0xD000,
        ime: Ime::On,
        ..State::default()
    };
    let stepped = step(state, &mut memory);
    assert_eq!((stepped.code, stepped.state.pc), (0, 0x0040));
}

#[test]
fn a_halted_machine_with_a_request_runs_into_an_undefined_byte() {
    let memory = memory(&[(0, &[0xD3]), (IE, &[0x01]), (IF, &[0x01])]);
    refuses(4, with(0, Mode::Halted), &memory);
}

#[test]
fn every_byte_after_the_prefix_is_defined() {
    for opcode in 0x00..=0xFF {
        let mut memory = memory(&[(0, &[0xCB, opcode])]);
        assert_eq!(step(State::default(), &mut memory).code, 0);
    }
}

#[test]
fn a_run_refuses_in_the_order_1_2_5() {
    let nops = memory(&[]);
    does_not_begin(1, with(0x01, Mode::Stopped), &nops[1..], 1_048_577);
    does_not_begin(2, with(0x01, Mode::Stopped), &nops, 1_048_577);
    does_not_begin(5, with(0x00, Mode::Stopped), &nops, 1_048_577);
    does_not_begin(5, with(0x00, Mode::Running), &nops, u32::MAX);
    does_not_begin(3, with(0x00, Mode::Stopped), &nops, 1_048_576);
    does_not_begin(3, with(0x00, Mode::Stopped), &nops, 1);
}

#[test]
fn budget_0_takes_no_step() {
    let nops = memory(&[]);
    does_not_begin(0, with(0xF0, Mode::Running), &nops, 0);
    does_not_begin(0, with(0xF0, Mode::Stopped), &nops, 0);
    does_not_begin(1, with(0x01, Mode::Running), &nops[1..], 0);
    does_not_begin(2, with(0x01, Mode::Running), &nops, 0);
}

#[test]
fn the_highest_budget_is_spent() {
    let ran = run(State::default(), &mut memory(&[]), 1_048_576);
    assert_eq!((ran.code, ran.spent, ran.steps), (0, 1_048_576, 1_048_576));
    assert_eq!(ran.state, State::default());
}

#[test]
fn a_run_may_pass_its_budget_by_5() {
    let mut memory = memory(&[(0, &[0xCD, 0x00, 0x00])]);
    let ran = run(State::default(), &mut memory, 1);
    assert_eq!((ran.code, ran.spent, ran.steps), (0, 6, 1));
}

#[test]
fn a_refused_step_keeps_the_steps_before_it() {
    let start = memory(&[(0, &[0x3C, 0x77, 0xD3])]);
    let mut after = start.clone();
    let state = State {
        h: 0xC0,
        ..State::default()
    };
    let ran = run(state, &mut after, 1_000);
    let kept = State {
        a: 1,
        pc: 2,
        ..state
    };
    let answer = Ran {
        code: 4,
        spent: 3,
        steps: 2,
        state: kept,
    };
    assert_eq!(ran, answer);
    assert_eq!(common::changed(&start, &after), [0xC000]);
    assert_eq!(after[0xC000], 1);
}

#[test]
fn stop_ends_a_run_with_3() {
    let mut memory = memory(&[(0, &[0x00, 0x10, 0x00, 0x3C])]);
    let ran = run(State::default(), &mut memory, 100);
    assert_eq!((ran.code, ran.spent, ran.steps), (3, 2, 2));
    assert_eq!((ran.state.pc, ran.state.mode), (3, Mode::Stopped));
}

/// Document 01's table of the numbers and M-101's, in their words.
#[test]
fn every_number_has_its_words() {
    let table = [
        (1, "memory length is not 65,536"),
        (2, "low four bits of F are not 0"),
        (3, "mode is Stopped when a step is due"),
        (4, "the step would run an undefined opcode"),
        (5, "budget above 1,048,576"),
        (6, "head, image or output slice of wrong length"),
        (7, "version byte is not 1"),
        (8, "a block length is not 14, or not 65,536"),
        (9, "IME code above 2, or mode code above 3"),
        (10, "output too short"),
        (11, "edition number is neither 1 nor 2"),
    ];
    for (number, words) in table {
        assert_eq!(second::sentence(number), words);
    }
}
