//! HALT: what a step of it leaves, and handlers that return to it.

use super::interrupts::{every_request, follow, place, with_upper_bits};
use super::interrupts::{EI, REQUESTS, RET, RETI, STACK, START, VECTORS};
use crate::context::{Context, Outcome};
use crate::draw::{self, LIVE_MODES, SWITCHES};
use crate::paper::{HALT, IE, IF, MEMORY_SIZE};
use second::{Ime, Mode, State};

/// One HALT at a time, then sequences with one in them.
pub fn halt(context: &mut Context) -> Outcome {
    let background = draw::noise(&mut context.rng);
    context.bench.lay(&background);
    for ime in SWITCHES {
        for mode in LIVE_MODES {
            alone(context, ime, mode)?;
        }
    }
    context.bench.lay(&vec![0; MEMORY_SIZE]);
    for program in PROGRAMS {
        for handler in HANDLERS {
            in_a_row(context, program, handler)?;
        }
    }
    Ok(())
}

/// Where a HALT stands; its own byte is IF or IE at the last two.
const PLACES: [u16; 4] = [START, 0x0000, IF, IE];

/// Every IE and IF, at each place and at a random one.
fn alone(context: &mut Context, ime: Ime, mode: Mode) -> Outcome {
    for requests in every_request() {
        let anywhere = context.rng.word();
        for pc in PLACES.into_iter().chain([anywhere]) {
            let (enabled, raised) = with_upper_bits(context, requests);
            context.bench.poke(IE, enabled);
            context.bench.poke(IF, raised);
            context.bench.poke(pc, HALT);
            let state = State {
                pc,
                ime,
                mode,
                ..draw::state(&mut context.rng)
            };
            context.lone_step(state)?;
        }
    }
    Ok(())
}

const INC_B: u8 = 0x04;
const INC_HL: u8 = 0x23;
const XOR_A: u8 = 0xAF;
const STORE_A: u8 = 0xE0; // LDH [n16],A, with one of:
const TO_IF: u8 = 0x0F;
const TO_IE: u8 = 0xFF;
const POP_HL: u8 = 0xE1;
const PUSH_HL: u8 = 0xE5;

/// A HALT in the shadow of EI. Requests are there before, or A has them and they are
/// stored: before EI, between the two, or before a first HALT, which then repeats EI.
const PROGRAMS: [&[u8]; 5] = [
    &[EI, HALT, INC_B],
    &[EI, HALT, HALT, INC_B],
    &[STORE_A, TO_IF, EI, HALT, INC_B],
    &[EI, STORE_A, TO_IF, HALT, INC_B],
    &[STORE_A, TO_IF, HALT, EI, HALT, INC_B],
];

/// They return at once, or by EI and RET; raise requests again; take back every request,
/// or every enable; halt themselves; step over the HALT.
const HANDLERS: [&[u8]; 7] = [
    &[RETI],
    &[EI, RET],
    &[STORE_A, TO_IF, RETI],
    &[XOR_A, STORE_A, TO_IF, RETI],
    &[XOR_A, STORE_A, TO_IE, RETI],
    &[EI, HALT, RET],
    &[POP_HL, INC_HL, PUSH_HL, RETI],
];

/// Where a program begins. Over IE or IF the high byte enables or raises one request,
/// all, or none; the last begins at IE itself and goes on at 0.
const STARTS: [u16; 4] = [START, 0x1F50, 0x2050, IE];

/// Where a dispatch stores far from IE and IF, and where on each of them.
const STACKS: [u16; 5] = [STACK, 0x0000, 0x0001, 0xFF10, 0xFF11];

/// Enough for five handlers one after the other and the HALT that they return to.
const STEPS: usize = 24;

/// A program, what stands at every vector, and where the program and its stack begin.
struct Scene<'a> {
    program: &'a [u8],
    handler: &'a [u8],
    start: u16,
    stack: u16,
}

fn in_a_row(context: &mut Context, program: &[u8], handler: &[u8]) -> Outcome {
    for start in STARTS {
        for stack in STACKS {
            let scene = Scene {
                program,
                handler,
                start,
                stack,
            };
            under_every_request(context, &scene)?;
        }
    }
    Ok(())
}

/// The requests are in A, and raised from the start or left to the program.
fn under_every_request(context: &mut Context, scene: &Scene) -> Outcome {
    for (enabled, raised) in REQUESTS {
        for there in [raised, 0] {
            let state = State {
                a: raised,
                ..set_up(context, scene, enabled, there)
            };
            follow(context, state, STEPS)?;
            context.bench.rewind();
        }
    }
    Ok(())
}

/// The state that a scene begins with. Its handler stands at 0 too, where a dispatch that
/// finds no request leads.
fn set_up(context: &mut Context, scene: &Scene, enabled: u8, raised: u8) -> State {
    context.bench.poke(IE, enabled);
    context.bench.poke(IF, raised);
    for vector in VECTORS.into_iter().chain([0]) {
        place(context, vector, scene.handler);
    }
    place(context, scene.start, scene.program);
    State {
        pc: scene.start,
        sp: scene.stack,
        ..State::default()
    }
}

#[cfg(test)]
mod tests {
    use super::*;

    /// Where EI and HALT end with every request raised.
    fn last(handler: &[u8]) -> State {
        let mut context = Context::new(1, "halt");
        let scene = Scene {
            program: PROGRAMS[0],
            handler,
            start: START,
            stack: STACK,
        };
        let state = set_up(&mut context, &scene, 0x1F, 0x1F);
        let last = follow(&mut context, state, STEPS);
        last.ok().expect("the judges agree")
    }

    #[test]
    fn the_steps_are_enough_to_come_back_to_the_halt() {
        let halted = State {
            pc: START + 2,
            sp: STACK,
            ime: Ime::On,
            mode: Mode::Halted,
            ..State::default()
        };
        assert_eq!(last(&[RETI]), halted);
        assert_eq!(last(&[EI, RET]), halted);
    }
}
