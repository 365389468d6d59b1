//! The program's two lines.

mod common;

use common::memory;
use second::{program, save_head, State};

const HEADER: &str = "code spent steps AF BC DE HL SP PC ime mode";

fn input(budget: u32, state: State, memory: &[u8]) -> Vec<u8> {
    let mut head = [0; 23];
    assert_eq!(save_head(state, &mut head), 0);
    [&budget.to_be_bytes()[..], &head, memory].concat()
}

/// The second line, once the first is seen to be the header.
fn second_line(input: &[u8]) -> String {
    let printed = program(input);
    let lines: Vec<_> = printed.split('\n').collect();
    assert_eq!((lines.len(), lines[0], lines[2]), (3, HEADER, ""));
    lines[1].to_string()
}

fn worked_example() -> Vec<u8> {
    let adding = [0xA7, 0x1A, 0x8E, 0x27, 0x22, 0x13, 0x05, 0x20, 0xF8, 0xC9];
    let memory = memory(&[
        (0x0150, &adding),
        (0xC000, &[0x99, 0x01]),
        (0xC100, &[0x01, 0x00]),
        (0xDFFE, &[0x34, 0x12]),
    ]);
    let state = State {
        b: 2,
        d: 0xC1,
        h: 0xC0,
        sp: 0xDFFE,
        pc: 0x0150,
        ..State::default()
    };
    input(30, state, &memory)
}

#[test]
fn the_worked_example() {
    let expected = "code spent steps AF BC DE HL SP PC ime mode\n\
                    0 30 16 02C0 0000 C102 C002 E000 1234 0 0\n";
    assert_eq!(program(&worked_example()), expected);
}

#[test]
fn a_wrong_length_is_6_alone() {
    let mut longer = worked_example();
    longer.push(0);
    for length in [0, 4, 27, 65_562, 65_564] {
        assert_eq!(second_line(&longer[..length]), "6");
    }
}

#[test]
fn a_refused_head_is_its_code_alone() {
    for (index, byte, code) in [(4, 2, "7"), (8, 13, "8"), (21, 3, "9"), (10, 1, "2")] {
        let mut input = worked_example();
        input[index] = byte;
        assert_eq!(second_line(&input), code);
        // A budget too high is not seen before the head.
        input[0] = 0xFF;
        assert_eq!(second_line(&input), code);
    }
}

#[test]
fn a_budget_too_high_is_5_alone() {
    let nops = memory(&[]);
    let highest = input(1_048_576, State::default(), &nops);
    let line = "0 1048576 1048576 0000 0000 0000 0000 0000 0000 0 0";
    assert_eq!(second_line(&highest), line);
    assert_eq!(second_line(&input(1_048_577, State::default(), &nops)), "5");
}

#[test]
fn a_refused_step_has_a_full_line() {
    let stops = memory(&[(0xFFFE, &[0x10])]);
    let state = State {
        a: 0xAB,
        f: 0xC0,
        pc: 0xFFFE,
        ..State::default()
    };
    let line = "3 1 1 ABC0 0000 0000 0000 0000 0000 0 3";
    assert_eq!(second_line(&input(2, state, &stops)), line);
    let undefined = memory(&[(0xFFFE, &[0xFD])]);
    let line = "4 0 0 ABC0 0000 0000 0000 0000 FFFE 0 0";
    assert_eq!(second_line(&input(2, state, &undefined)), line);
}
