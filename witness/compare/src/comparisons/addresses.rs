//! Everything that is or holds an address, at each of the 65,536 values.

use super::rows::{place, poke_constant};
use crate::context::{Context, Outcome};
use crate::draw;
use second::{Ime, State};

/// What takes on every value.
#[derive(Clone, Copy)]
enum Holder {
    Bc,
    De,
    Hl,
    Sp,
    Pc,
    Constant,
}

use Holder::{Bc, Constant, De, Hl, Pc, Sp};

/// An opcode that reads, stores, jumps or counts by way of the holder.
const FORMS: [(u32, Holder); 24] = [
    (0x0A, Bc),       // LD A,[BC]
    (0x03, Bc),       // INC BC
    (0x12, De),       // LD [DE],A
    (0x1B, De),       // DEC DE
    (0x2A, Hl),       // LD A,[HLI]
    (0x32, Hl),       // LD [HLD],A
    (0x34, Hl),       // INC [HL]
    (0x23, Hl),       // INC HL
    (0x2B, Hl),       // DEC HL
    (0xE9, Hl),       // JP HL
    (0xC5, Sp),       // PUSH BC
    (0xE1, Sp),       // POP HL
    (0xCD, Sp),       // CALL
    (0xC9, Sp),       // RET
    (0xEF, Sp),       // RST $28
    (0x33, Sp),       // INC SP
    (0x3B, Sp),       // DEC SP
    (0x00, Pc),       // NOP
    (0x18, Pc),       // JR
    (0xCD, Pc),       // CALL
    (0xEA, Constant), // LD [n16],A
    (0xFA, Constant), // LD A,[n16]
    (0x08, Constant), // LD [n16],SP
    (0xC3, Constant), // JP
];

pub fn addresses(context: &mut Context) -> Outcome {
    let background = draw::noise(&mut context.rng);
    context.bench.lay(&background);
    for value in 0..=0xFFFF {
        for (row, holder) in FORMS {
            one(context, row, holder, value)?;
        }
    }
    Ok(())
}

fn one(context: &mut Context, row: u32, holder: Holder, value: u16) -> Outcome {
    let mut state = State {
        ime: Ime::Off,
        ..draw::state(&mut context.rng)
    };
    let mut constant = context.rng.word();
    match holder {
        Bc => [state.b, state.c] = value.to_be_bytes(),
        De => [state.d, state.e] = value.to_be_bytes(),
        Hl => [state.h, state.l] = value.to_be_bytes(),
        Sp => state.sp = value,
        Pc => state.pc = value,
        Constant => constant = value,
    }
    poke_constant(&mut context.bench, state.pc, constant);
    let state = place(&mut context.bench, row, state)?;
    context.lone_step(state)
}
