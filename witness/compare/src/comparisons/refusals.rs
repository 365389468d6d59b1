//! Steps that are refused: nothing changes, and the number says why.

use crate::context::{Context, Failure, Outcome};
use crate::draw::{self, LIVE_MODES, SWITCHES};
use crate::paper::{self, IE, IF, UNDEFINED_BYTES};
use second::{Ime, Mode, State};

const STATES: usize = 50;
const ANY_STATES: usize = 20_000;

fn lay_noise(context: &mut Context) {
    let background = draw::noise(&mut context.rng);
    context.bench.lay(&background);
}

/// A step that must be refused with this number.
fn refused(context: &mut Context, state: State, code: u8) -> Outcome {
    let answer = context.step(state)?.answer;
    context.bench.rewind();
    match answer.code == code {
        true => Ok(()),
        false => Err(Failure::of_harness("a refusal was set up and didn't come")),
    }
}

/// Each undefined byte in each mode and under each switch, a request being there
/// just where it leads to the byte.
pub fn undefined(context: &mut Context) -> Outcome {
    lay_noise(context);
    for byte in UNDEFINED_BYTES {
        for mode in LIVE_MODES {
            for ime in SWITCHES {
                for _ in 0..STATES {
                    meet_undefined(context, byte, mode, ime)?;
                }
            }
        }
    }
    Ok(())
}

fn meet_undefined(context: &mut Context, byte: u8, mode: Mode, ime: Ime) -> Outcome {
    if mode == Mode::Halted && ime == Ime::On {
        return Ok(()); // It idles or dispatches, and no byte is read.
    }
    let state = State {
        pc: context.rng.word() & 0xFEFF,
        mode,
        ime,
        ..draw::state(&mut context.rng)
    };
    let requests = match (mode, ime) {
        (Mode::Halted, _) => 0x1F,
        (_, Ime::On) => 0x00,
        _ => context.rng.byte(),
    };
    context.bench.poke(IE, requests);
    context.bench.poke(IF, requests);
    context.bench.poke(state.pc, byte);
    refused(context, state, paper::UNDEFINED)
}

/// Stopped comes before dispatch and before an undefined byte.
pub fn stopped(context: &mut Context) -> Outcome {
    lay_noise(context);
    for _ in 0..ANY_STATES {
        let state = State {
            mode: Mode::Stopped,
            ..draw::state(&mut context.rng)
        };
        let requests = context.rng.byte();
        context.bench.poke(IE, requests);
        context.bench.poke(IF, requests);
        refused(context, state, paper::STOPPED)?;
    }
    Ok(())
}

/// The low bits of F come before Stopped and everything after it.
pub fn dirty(context: &mut Context) -> Outcome {
    lay_noise(context);
    for f in (0..=255).filter(|f| f & 0x0F != 0) {
        for mode in LIVE_MODES.into_iter().chain([Mode::Stopped]) {
            for _ in 0..STATES {
                let state = State {
                    f,
                    mode,
                    ..draw::state(&mut context.rng)
                };
                refused(context, state, paper::FLAG_BITS)?;
            }
        }
    }
    Ok(())
}
