//! The proved core, through its C interface as the Rust wrapper declares it.

use second::{Ime, Mode, State, Stepped};
use trnadulek::link::{self, Block};

/// The number for a code that is none, of IME or of a mode.
const STATE_CODE: u8 = 9;

/// One step of the proved core.
pub fn step(state: State, memory: &mut [u8]) -> Stepped {
    let mut block = block_of(&state);
    let mut cycles = 0;
    let code = link::step(&mut block, memory, &mut cycles);
    match state_of(&block) {
        Some(after) => Stepped {
            code,
            cycles,
            state: after,
        },
        // A block with such a code is no answer.
        None => Stepped {
            code: STATE_CODE,
            cycles,
            state,
        },
    }
}

fn block_of(s: &State) -> Block {
    let [sp_high, sp_low] = s.sp.to_be_bytes();
    let [pc_high, pc_low] = s.pc.to_be_bytes();
    let (ime, mode) = (s.ime.code(), s.mode.code());
    [
        s.a, s.f, s.b, s.c, s.d, s.e, s.h, s.l, sp_high, sp_low, pc_high, pc_low, ime, mode,
    ]
}

fn state_of(block: &Block) -> Option<State> {
    let [a, f, b, c, d, e, h, l, sp_high, sp_low, pc_high, pc_low, ime, mode] = *block;
    Some(State {
        a,
        f,
        b,
        c,
        d,
        e,
        h,
        l,
        sp: u16::from_be_bytes([sp_high, sp_low]),
        pc: u16::from_be_bytes([pc_high, pc_low]),
        ime: Ime::from_code(ime)?,
        mode: Mode::from_code(mode)?,
    })
}
