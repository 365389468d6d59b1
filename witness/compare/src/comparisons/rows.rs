//! Every runnable row of the opcode table on random states.

use crate::bench::Bench;
use crate::context::{Context, Failure, Outcome};
use crate::draw::{self, EDGES};
use crate::paper::{self, IE, IF, PREFIX, UNDEFINED_BYTES};
use second::{Ime, Mode, State};

const STATES: u32 = 2_000;
const WOKEN_STATES: u32 = 200;

/// The 500 rows that stand for an instruction.
pub fn runnable() -> impl Iterator<Item = u32> {
    let none = |byte: &u8| *byte == PREFIX || UNDEFINED_BYTES.contains(byte);
    let plain = (0..=255).filter(move |byte| !none(byte)).map(u32::from);
    plain.chain(256..512)
}

pub fn running(context: &mut Context) -> Outcome {
    rows(context, Mode::Running, STATES)
}

/// In Repeat the byte after the prefix is the prefix once more, so each of the 256
/// prefixed rows is here what document 01 makes of it: $CB $CB, with the row's own
/// byte left standing after it.
pub fn repeat(context: &mut Context) -> Outcome {
    rows(context, Mode::Repeat, STATES)
}

/// A request wakes a halted processor whose switch is not On.
pub fn woken(context: &mut Context) -> Outcome {
    rows(context, Mode::Halted, WOKEN_STATES)
}

fn rows(context: &mut Context, mode: Mode, states: u32) -> Outcome {
    let background = draw::noise(&mut context.rng);
    context.bench.lay(&background);
    for row in runnable() {
        for _ in 0..states {
            one(context, row, mode)?;
        }
    }
    Ok(())
}

fn one(context: &mut Context, row: u32, mode: Mode) -> Outcome {
    let mut state = draw::state(&mut context.rng);
    state.mode = mode;
    near_itself(context, &mut state);
    scatter(context, &state);
    if mode == Mode::Halted {
        request(context);
    }
    let state = place(&mut context.bench, row, state)?;
    context.lone_step(state)
}

/// Now and then an address register leads into the instruction.
fn near_itself(context: &mut Context, state: &mut State) {
    let rng = &mut context.rng;
    if !rng.one_in(8) {
        return;
    }
    let near = state.pc.wrapping_add(rng.below(4) as u16);
    match rng.below(4) {
        0 => state.sp = near,
        1 => [state.b, state.c] = near.to_be_bytes(),
        2 => [state.d, state.e] = near.to_be_bytes(),
        _ => [state.h, state.l] = near.to_be_bytes(),
    }
}

/// Fresh bytes where an instruction may look.
fn scatter(context: &mut Context, state: &State) {
    let hl = u16::from_be_bytes([state.h, state.l]);
    for address in [IF, IE, hl, state.sp, state.sp.wrapping_add(1)] {
        let byte = context.rng.byte();
        context.bench.poke(address, byte);
    }
    let constant = match context.rng.one_in(4) {
        true => context.rng.pick(&EDGES),
        false => context.rng.word(),
    };
    poke_constant(&mut context.bench, state.pc, constant);
}

/// The two bytes after the opcode.
pub fn poke_constant(bench: &mut Bench, pc: u16, constant: u16) {
    let [low, high] = constant.to_le_bytes();
    bench.poke(pc.wrapping_add(1), low);
    bench.poke(pc.wrapping_add(2), high);
}

fn request(context: &mut Context) {
    let bit = 1 << context.rng.below(5);
    context.bench.poke(IF, context.bench.peek(IF) | bit);
    context.bench.poke(IE, context.bench.peek(IE) | bit);
}

/// Puts a row's bytes at PC, and turns the switch off where a dispatch would come
/// before them.
pub fn place(bench: &mut Bench, row: u32, state: State) -> Result<State, Failure> {
    let (first, after) = match row < 256 {
        true => (row as u8, None),
        false => (PREFIX, Some(row as u8)),
    };
    if let Some(byte) = after {
        bench.poke(state.pc.wrapping_add(1), byte);
    }
    bench.poke(state.pc, first);
    let mut state = state;
    if paper::dispatches(&state, bench.memory()) {
        state.ime = Ime::Off;
    }
    if paper::idles(&state, bench.memory()) {
        // The row's own bytes have taken the request away.
        state.mode = Mode::Running;
    }
    match paper::opcode(&state, bench.memory()) == Some(first) {
        true => Ok(state),
        false => Err(Failure::of_harness("a row was placed that doesn't run")),
    }
}

#[cfg(test)]
mod tests {
    use super::*;

    #[test]
    fn five_hundred_rows_run() {
        assert_eq!(runnable().count(), 500);
        assert!(runnable().all(|row| second::length(row) > 0));
    }
}
