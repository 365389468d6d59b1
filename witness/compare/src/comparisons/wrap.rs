//! What lies on both sides of $FFFF: instructions, stack words, constants.

use super::rows::{place, poke_constant, runnable};
use crate::context::{Context, Outcome};
use crate::draw;
use second::{Mode, State};

const PROGRAM: [u16; 5] = [0xFFFC, 0xFFFD, 0xFFFE, 0xFFFF, 0x0000];
const STACK: [u16; 5] = [0x0000, 0x0001, 0x0002, 0xFFFE, 0xFFFF];
const POINTER: [u16; 5] = [0xFFFD, 0xFFFE, 0xFFFF, 0x0000, 0x0001];
const TIMES: usize = 4;

pub fn wrap(context: &mut Context) -> Outcome {
    let background = draw::noise(&mut context.rng);
    context.bench.lay(&background);
    for row in runnable() {
        for pc in PROGRAM {
            for sp in STACK {
                for mode in [Mode::Running, Mode::Repeat] {
                    some(context, row, pc, sp, mode)?;
                }
            }
        }
    }
    Ok(())
}

fn some(context: &mut Context, row: u32, pc: u16, sp: u16, mode: Mode) -> Outcome {
    for _ in 0..TIMES {
        let mut state = State {
            pc,
            sp,
            mode,
            ..draw::state(&mut context.rng)
        };
        [state.b, state.c] = context.rng.pick(&POINTER).to_be_bytes();
        [state.d, state.e] = context.rng.pick(&POINTER).to_be_bytes();
        [state.h, state.l] = context.rng.pick(&POINTER).to_be_bytes();
        let constant = context.rng.pick(&POINTER);
        poke_constant(&mut context.bench, pc, constant);
        let state = place(&mut context.bench, row, state)?;
        context.lone_step(state)?;
    }
    Ok(())
}
