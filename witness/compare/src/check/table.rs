//! A row of the opcode table.

use super::Verdict;
use crate::answer::same;
use crate::bench::{Bench, Judged};
use crate::input::Input;
use crate::paper;
use crate::proved;
use second::State;

const EMPTY: (u8, u8) = (0, 0);

pub fn row(bench: &mut Bench, input: &Input) -> Verdict {
    let row = input.number;
    let given = (second::length(row), second::untaken_cycles(row));
    let paper = is_empty(row);
    if paper {
        same("a row without an opcode", EMPTY, given)?;
    }
    let mgba = by_mgba(bench, row);
    if let Some(seen) = mgba {
        same(
            "length and untaken cycles, mGBA (expected) and the second program",
            seen,
            given,
        )?;
    }
    let proved = proved::row(row);
    if let Some(proved) = proved {
        same(
            "length and untaken cycles of the proved core",
            given,
            proved,
        )?;
    }
    Ok(Judged {
        second: true,
        mgba: mgba.is_some(),
        plain: false,
        proved: proved.is_some(),
        paper,
    })
}

fn is_empty(row: u32) -> bool {
    match u8::try_from(row) {
        Ok(byte) => byte == paper::PREFIX || paper::UNDEFINED_BYTES.contains(&byte),
        Err(_) => row > 511,
    }
}

/// Bytes fetched and least cycles, over two settings of F of which one leaves any
/// condition untaken. Nothing for a row that stands for no opcode of its own.
fn by_mgba(bench: &mut Bench, row: u32) -> Option<(u8, u8)> {
    if row > 511 || row == u32::from(paper::PREFIX) {
        return None;
    }
    let clear = run_row(bench, row, 0x00);
    let set = run_row(bench, row, 0xF0);
    Some((clear.0, clear.1.min(set.1)))
}

fn run_row(bench: &mut Bench, row: u32, f: u8) -> (u8, u8) {
    let mut memory = vec![0; paper::MEMORY_SIZE];
    match row {
        0..=255 => memory[0] = row as u8,
        _ => memory[..2].copy_from_slice(&[paper::PREFIX, row as u8]),
    }
    let state = State {
        f,
        h: 0xC0,
        sp: 0xD000,
        ..State::default()
    };
    let outcome = bench.mgba_alone(&state, &mut memory);
    match outcome.illegal {
        true => EMPTY,
        false => (outcome.fetched as u8, outcome.cycles as u8),
    }
}
