//! Byte arithmetic on every operand there is.

use crate::context::{Context, Outcome};
use crate::draw;
use crate::paper::PREFIX;
use second::{Ime, State};

const DAA: u8 = 0x27;
const ALU_N8: u8 = 0xC6;
const PC: u16 = 0x4000;

/// A state at the instruction, with random registers and the switch off.
fn begin(context: &mut Context) -> State {
    let background = draw::noise(&mut context.rng);
    context.bench.lay(&background);
    State {
        pc: PC,
        ime: Ime::Off,
        h: 0xC0,
        ..draw::state(&mut context.rng)
    }
}

pub fn daa(context: &mut Context) -> Outcome {
    let state = begin(context);
    for a in 0..=255 {
        for f in (0..=255).step_by(16) {
            context.bench.poke(PC, DAA);
            context.lone_step(State { a, f, ..state })?;
        }
    }
    Ok(())
}

pub fn alu(context: &mut Context) -> Outcome {
    let state = begin(context);
    for operation in 0..8 {
        for operand in 0..=255 {
            for a in 0..=255 {
                context.bench.poke(PC, ALU_N8 + 8 * operation);
                context.bench.poke(PC + 1, operand);
                let other_flags = context.rng.byte() & 0xE0;
                for carry in [0x00, 0x10] {
                    let f = other_flags | carry;
                    context.step(State { a, f, ..state })?;
                }
                context.bench.rewind();
            }
        }
    }
    Ok(())
}

/// An opcode with or without the prefix, and the operand that it changes.
struct Form {
    prefixed: bool,
    byte: u8,
    operand: u8,
}

pub fn one_byte(context: &mut Context) -> Outcome {
    for form in forms() {
        let state = begin(context);
        for value in 0..=255 {
            for f in (0..=255).step_by(16) {
                let state = put(context, &form, State { f, ..state }, value);
                context.lone_step(state)?;
            }
        }
    }
    Ok(())
}

/// INC r, DEC r, the prefixed rotates and shifts, and the four rotates of A.
fn forms() -> Vec<Form> {
    let plain = |byte, operand| Form {
        prefixed: false,
        byte,
        operand,
    };
    let mut forms: Vec<Form> = [0x07, 0x0F, 0x17, 0x1F].map(|byte| plain(byte, 7)).into();
    for operand in 0..8 {
        forms.push(plain(0x04 + 8 * operand, operand));
        forms.push(plain(0x05 + 8 * operand, operand));
        forms.extend((0..8).map(|rotate| Form {
            prefixed: true,
            byte: 8 * rotate + operand,
            operand,
        }));
    }
    forms
}

/// The opcode at PC and the value where its operand is: `B C D E H L [HL] A`.
fn put(context: &mut Context, form: &Form, mut state: State, value: u8) -> State {
    match form.operand {
        0 => state.b = value,
        1 => state.c = value,
        2 => state.d = value,
        3 => state.e = value,
        4 => state.h = value,
        5 => state.l = value,
        6 => {
            let hl = u16::from_be_bytes([state.h, state.l]);
            context.bench.poke(hl, value);
        }
        _ => state.a = value,
    }
    if form.prefixed {
        context.bench.poke(PC, PREFIX);
        context.bench.poke(PC + 1, form.byte);
    } else {
        context.bench.poke(PC, form.byte);
    }
    state
}

#[cfg(test)]
mod tests {
    use super::forms;

    #[test]
    fn each_operand_has_ten_forms_and_a_has_four_more() {
        assert_eq!(forms().len(), 8 * 10 + 4);
        assert_eq!(forms().iter().filter(|form| form.operand == 7).count(), 14);
    }
}
