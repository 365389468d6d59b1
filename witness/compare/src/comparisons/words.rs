//! The additions of 16 bits, on both sides of every carry.

use crate::context::{Context, Outcome};
use crate::draw;
use second::{Ime, State};

const PC: u16 = 0x4000;
const ADD_HL: [u8; 3] = [0x09, 0x19, 0x39];
const ADD_HL_HL: u8 = 0x29;
const ADD_SP: u8 = 0xE8;
const LD_HL_SP: u8 = 0xF8;

fn begin(context: &mut Context) -> State {
    let background = draw::noise(&mut context.rng);
    context.bench.lay(&background);
    State {
        pc: PC,
        ime: Ime::Off,
        ..draw::state(&mut context.rng)
    }
}

/// Every HL with the partner just below and just at the carry of bit 15 and of bit
/// 11, BC, DE and SP taking turns; and every HL with itself.
pub fn add_hl(context: &mut Context) -> Outcome {
    let state = begin(context);
    for hl in 0..=0xFFFF_u16 {
        let top = context.rng.word() & 0xF000;
        let below_15 = 0xFFFF - hl;
        let below_11 = top | (0x0FFF - (hl & 0x0FFF));
        let at_11 = top | (below_11.wrapping_add(1) & 0x0FFF);
        for partner in [below_15, below_15.wrapping_add(1), below_11, at_11] {
            let opcode = context.rng.pick(&ADD_HL);
            add(context, opcode, state, hl, partner)?;
        }
        add(context, ADD_HL_HL, state, hl, hl)?;
    }
    Ok(())
}

fn add(context: &mut Context, opcode: u8, state: State, hl: u16, partner: u16) -> Outcome {
    let mut state = state;
    [state.h, state.l] = hl.to_be_bytes();
    match opcode {
        0x09 => [state.b, state.c] = partner.to_be_bytes(),
        0x19 => [state.d, state.e] = partner.to_be_bytes(),
        0x39 => state.sp = partner,
        _ => {}
    }
    state.f = context.rng.byte() & 0xF0;
    context.bench.poke(PC, opcode);
    context.lone_step(state)
}

/// Every low byte of SP with every constant, under four high bytes.
pub fn add_sp(context: &mut Context) -> Outcome {
    let state = begin(context);
    for opcode in [ADD_SP, LD_HL_SP] {
        for low in 0..=255 {
            for constant in 0..=255 {
                context.bench.poke(PC, opcode);
                context.bench.poke(PC + 1, constant);
                for high in [0x00, 0x7F, 0xFF, context.rng.byte()] {
                    let sp = u16::from_be_bytes([high, low]);
                    let f = context.rng.byte() & 0xF0;
                    context.step(State { sp, f, ..state })?;
                }
                context.bench.rewind();
            }
        }
    }
    Ok(())
}
