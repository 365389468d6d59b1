//! The cases of the program, byte by byte, against document 01's grid: the one
//! place here where opcodes are taken apart into x, y and z.

mod common;

use common::memory;
use second::{length, step, untaken_cycles, State};

/// The index of [HL] among the operands.
const AT_HL: usize = 6;

struct Parts {
    x: usize,
    y: usize,
    z: usize,
    p: usize,
    q: usize,
}

fn parts(opcode: usize) -> Parts {
    let y = (opcode >> 3) & 7;
    Parts {
        x: opcode >> 6,
        y,
        z: opcode & 7,
        p: y / 2,
        q: y % 2,
    }
}

fn if_at_hl(operand: usize, cycles: u8, otherwise: u8) -> u8 {
    if operand == AT_HL {
        cycles
    } else {
        otherwise
    }
}

/// Length and untaken cycles by the grid and the instruction reference.
fn row(opcode: usize) -> (u8, u8) {
    let Parts { x, y, z, p, q } = parts(opcode);
    match (x, z) {
        (0, 0) => [
            (1, 1),
            (3, 5),
            (2, 1),
            (2, 3),
            (2, 2),
            (2, 2),
            (2, 2),
            (2, 2),
        ][y],
        (0, 1) => [(3, 3), (1, 2)][q],
        (0, 2 | 3) => (1, 2),
        (0, 4 | 5) => (1, if_at_hl(y, 3, 1)),
        (0, 6) => (2, if_at_hl(y, 3, 2)),
        (1, _) if (y, z) == (AT_HL, AT_HL) => (1, 1),
        (1, _) => (1, if_at_hl(y, 2, if_at_hl(z, 2, 1))),
        (2, _) => (1, if_at_hl(z, 2, 1)),
        (3, _) => row_of_quarter_3(y, z, p, q),
        _ => (1, 1),
    }
}

fn row_of_quarter_3(y: usize, z: usize, p: usize, q: usize) -> (u8, u8) {
    match z {
        0 if y < 4 => (1, 2),
        0 => [(2, 3), (2, 4), (2, 3), (2, 3)][y - 4],
        1 if q == 0 => (1, 3),
        1 => [(1, 4), (1, 4), (1, 1), (1, 2)][p],
        2 if y < 4 => (3, 3),
        2 => [(1, 2), (3, 4)][q],
        3 => match y {
            0 => (3, 4),
            6 | 7 => (1, 1),
            _ => (0, 0),
        },
        4 if y < 4 => (3, 3),
        5 if q == 0 => (1, 4),
        5 if p == 0 => (3, 6),
        6 => (2, 2),
        7 => (1, 4),
        _ => (0, 0),
    }
}

fn prefixed_row(opcode: usize) -> (u8, u8) {
    let Parts { x, z, .. } = parts(opcode);
    let at_hl = if x == 1 { 3 } else { 4 };
    (2, if_at_hl(z, at_hl, 2))
}

#[test]
fn the_table_is_the_grid() {
    for opcode in 0..256 {
        let found = |row| (length(row), untaken_cycles(row));
        assert_eq!(found(opcode as u32), row(opcode), "{opcode:02X}");
        let after_prefix = found(256 + opcode as u32);
        assert_eq!(after_prefix, prefixed_row(opcode), "CB {opcode:02X}");
    }
}

#[test]
fn rows_above_511_are_0() {
    for row in [512, 513, 65_536, u32::MAX] {
        assert_eq!((length(row), untaken_cycles(row)), (0, 0));
    }
}

/// B C D E H L [HL] A, all different, with HL at $C3C5.
const OPERANDS: [u8; 8] = [0x11, 0x22, 0x44, 0x88, 0xC3, 0xC5, 0x5A, 0xF7];

fn state() -> State {
    State {
        a: OPERANDS[7],
        f: 0x50,
        b: OPERANDS[0],
        c: OPERANDS[1],
        d: OPERANDS[2],
        e: OPERANDS[3],
        h: OPERANDS[4],
        l: OPERANDS[5],
        ..State::default()
    }
}

/// The eight operands, F and cycles after the instruction.
fn after(code: &[u8]) -> ([u8; 8], u8, u8) {
    let mut memory = memory(&[(0, code), (0xC3C5, &[OPERANDS[6]])]);
    let stepped = step(state(), &mut memory);
    let s = stepped.state;
    let operands = [s.b, s.c, s.d, s.e, s.h, s.l, memory[0xC3C5], s.a];
    (operands, s.f, stepped.cycles)
}

fn operands_with(index: usize, byte: u8) -> [u8; 8] {
    let mut operands = OPERANDS;
    operands[index] = byte;
    operands
}

#[test]
fn loads_between_operands_follow_the_grid() {
    for opcode in (0x40..0x80).filter(|opcode| *opcode != 0x76) {
        let Parts { y, z, .. } = parts(opcode);
        let expected = (operands_with(y, OPERANDS[z]), 0x50, row(opcode).1);
        assert_eq!(after(&[opcode as u8]), expected, "{opcode:02X}");
    }
}

#[test]
fn bits_follow_the_grid() {
    for opcode in 0x40..0x100 {
        let Parts { x, y, z, .. } = parts(opcode);
        let byte = OPERANDS[z];
        let bit = 1 << y;
        let tested = if byte & bit == 0 { 0xB0 } else { 0x30 };
        let (operands, f) = match x {
            1 => (OPERANDS, tested),
            2 => (operands_with(z, byte & !bit), 0x50),
            _ => (operands_with(z, byte | bit), 0x50),
        };
        let expected = (operands, f, prefixed_row(opcode).1);
        assert_eq!(after(&[0xCB, opcode as u8]), expected, "CB {opcode:02X}");
    }
}

#[test]
fn a_taken_branch_costs_more() {
    let more = [(0x20, 1), (0xC2, 1), (0xC4, 3), (0xC0, 3)];
    for (first, extra) in more {
        // NZ, Z, NC, C: the flags that meet each, and those that do not.
        let conditions = [(0x00, 0x80), (0x80, 0x00), (0x00, 0x10), (0x10, 0x00)];
        for (cc, (met, unmet)) in conditions.into_iter().enumerate() {
            let opcode = first + 8 * cc as u8;
            let untaken = row(usize::from(opcode)).1;
            let cycles = |f| {
                let before = State { f, ..state() };
                step(before, &mut memory(&[(0, &[opcode])])).cycles
            };
            assert_eq!(cycles(met), untaken + extra, "{opcode:02X} taken");
            assert_eq!(cycles(unmet), untaken, "{opcode:02X} untaken");
        }
    }
}
