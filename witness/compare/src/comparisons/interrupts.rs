//! The interrupt switch, HALT, STOP and dispatch.

use crate::context::{Context, Failure, Outcome};
use crate::draw::{self, LIVE_MODES, SWITCHES};
use crate::paper::{IE, IF, MEMORY_SIZE};
use second::{Ime, Mode, State};

const NOP: u8 = 0x00;
const STOP: u8 = 0x10;
const HALT: u8 = 0x76;
pub const RET: u8 = 0xC9;
pub const RETI: u8 = 0xD9;
const DI: u8 = 0xF3;
pub const EI: u8 = 0xFB;
const LETTERS: [u8; 6] = [NOP, STOP, HALT, RETI, DI, EI];

/// IE and IF: none, enabled alone, raised alone, one, all, and bits without meaning.
pub const REQUESTS: [(u8, u8); 7] = [
    (0x00, 0x00),
    (0x1F, 0x00),
    (0x00, 0x1F),
    (0x01, 0x01),
    (0x1F, 0x1F),
    (0xE0, 0xE0),
    (0xF4, 0x1C),
];

/// What stands at each vector: RETI; EI, RET; DI, HALT.
const HANDLERS: [[u8; 2]; 3] = [[RETI, NOP], [EI, RET], [DI, HALT]];

/// Where a dispatch leads that finds a request.
pub const VECTORS: [u16; 5] = [0x40, 0x48, 0x50, 0x58, 0x60];

pub const START: u16 = 0x0150;
pub const STACK: u16 = 0xD000;
const STEPS: usize = 10;

/// Every sequence of four letters from Running, and every one of two letters from
/// every live mode and with every handler.
pub fn sequences(context: &mut Context) -> Outcome {
    context.bench.lay(&vec![0; MEMORY_SIZE]);
    for (n, letters) in words(4).into_iter().enumerate() {
        let handler = HANDLERS[n % HANDLERS.len()];
        under_every_request(context, &letters, handler, Mode::Running)?;
    }
    for letters in words(2) {
        for handler in HANDLERS {
            for mode in LIVE_MODES {
                under_every_request(context, &letters, handler, mode)?;
            }
        }
    }
    Ok(())
}

/// Every word of so many letters.
fn words(length: u32) -> Vec<Vec<u8>> {
    let letter = |number: usize, place: u32| LETTERS[number / 6_usize.pow(place) % 6];
    let word = |number: usize| (0..length).map(|place| letter(number, place)).collect();
    (0..6_usize.pow(length)).map(word).collect()
}

fn under_every_request(
    context: &mut Context,
    letters: &[u8],
    handler: [u8; 2],
    mode: Mode,
) -> Outcome {
    for ime in SWITCHES {
        for (enabled, raised) in REQUESTS {
            set_up(context, letters, handler);
            context.bench.poke(IE, enabled);
            context.bench.poke(IF, raised);
            let state = State {
                pc: START,
                sp: STACK,
                ime,
                mode,
                ..State::default()
            };
            follow(context, state, STEPS)?;
            context.bench.rewind();
        }
    }
    Ok(())
}

/// The letters at the start, where each RETI finds the address after it on the
/// stack, and the handler at every vector.
fn set_up(context: &mut Context, letters: &[u8], handler: [u8; 2]) {
    let mut stack = STACK;
    for (address, letter) in (START..).zip(letters) {
        context.bench.poke(address, *letter);
        if *letter == RETI {
            let [low, high] = (address + 1).to_le_bytes();
            context.bench.poke(stack, low);
            context.bench.poke(stack + 1, high);
            stack += 2;
        }
    }
    for vector in VECTORS {
        place(context, vector, &handler);
    }
}

/// Pokes bytes one after the other.
pub fn place(context: &mut Context, at: u16, bytes: &[u8]) {
    for (offset, byte) in (0..).zip(bytes) {
        context.bench.poke(at.wrapping_add(offset), *byte);
    }
}

/// Steps until one is refused. Gives the state after them.
pub fn follow(context: &mut Context, start: State, steps: usize) -> Result<State, Failure> {
    let mut state = start;
    for _ in 0..steps {
        let answer = context.step(state)?.answer;
        if answer.code != 0 {
            break;
        }
        state = answer.state;
    }
    Ok(state)
}

/// Where a store of the dispatch lands on IE or IF, or passes it by one.
const MEETING_POINTS: [u16; 8] = [
    0x0000, 0x0001, 0x0002, 0xFF0F, 0xFF10, 0xFF11, 0xFF12, 0xFFFF,
];
const PROGRAM_COUNTERS: usize = 4;

/// Every IE and IF at the meeting points and at a random SP, from every live mode;
/// there every high byte of PC, which keeps, changes or cancels the request; then
/// every PC and every SP.
pub fn dispatch(context: &mut Context) -> Outcome {
    let background = draw::noise(&mut context.rng);
    context.bench.lay(&background);
    for requests in every_request() {
        for mode in LIVE_MODES {
            at_meeting_points(context, requests, mode)?;
        }
    }
    for sp in MEETING_POINTS {
        under_every_high_byte(context, sp)?;
    }
    everywhere(context)
}

/// Every IE and IF, as far as they have a meaning.
pub fn every_request() -> impl Iterator<Item = (u8, u8)> {
    (0..32).flat_map(|enabled| (0..32).map(move |raised| (enabled, raised)))
}

/// The same with any bits in the upper three, which mean nothing.
pub fn with_upper_bits(context: &mut Context, requests: (u8, u8)) -> (u8, u8) {
    let mut byte = |low| low | (context.rng.byte() & 0xE0);
    (byte(requests.0), byte(requests.1))
}

fn at_meeting_points(context: &mut Context, requests: (u8, u8), mode: Mode) -> Outcome {
    let anywhere = context.rng.word();
    for sp in MEETING_POINTS.into_iter().chain([anywhere]) {
        for _ in 0..PROGRAM_COUNTERS {
            let pc = draw::address(&mut context.rng);
            let requests = with_upper_bits(context, requests);
            meet(context, requests, mode, sp, pc)?;
        }
    }
    Ok(())
}

/// Each set of requests alone enabled where all are raised, and alone raised where all
/// are enabled.
fn under_every_high_byte(context: &mut Context, sp: u16) -> Outcome {
    for high in 0..=255 {
        for set in 1..32 {
            for requests in [(set, 0x1F), (0x1F, set)] {
                with_high_byte(context, requests, sp, high)?;
            }
        }
    }
    Ok(())
}

/// The upper three bits of IE and IF clear, and set.
fn with_high_byte(context: &mut Context, requests: (u8, u8), sp: u16, high: u8) -> Outcome {
    let (enabled, raised) = requests;
    for upper in [0x00, 0xE0] {
        let pc = u16::from_be_bytes([high, context.rng.byte()]);
        let mode = context.rng.pick(&LIVE_MODES);
        meet(context, (enabled | upper, raised | upper), mode, sp, pc)?;
    }
    Ok(())
}

fn everywhere(context: &mut Context) -> Outcome {
    for value in 0..=0xFFFF {
        let raised = 1 << context.rng.below(5);
        let requests = with_upper_bits(context, (0x1F, raised));
        let other = context.rng.word();
        meet(context, requests, Mode::Running, other, value)?;
        meet(context, requests, Mode::Running, value, other)?;
    }
    Ok(())
}

/// One step under IME On with this IE and IF.
fn meet(context: &mut Context, requests: (u8, u8), mode: Mode, sp: u16, pc: u16) -> Outcome {
    let (enabled, raised) = requests;
    context.bench.poke(IE, enabled);
    context.bench.poke(IF, raised);
    let state = State {
        sp,
        pc,
        mode,
        ime: Ime::On,
        ..draw::state(&mut context.rng)
    };
    let answer = context.step(state)?.answer;
    context.bench.rewind();
    match enabled & raised & 0x1F != 0 && answer.spent != 5 {
        true => Err(Failure::of_harness("a request was not dispatched")),
        false => Ok(()),
    }
}

/// Halted without a request: one cycle, and nothing changes.
pub fn idle(context: &mut Context) -> Outcome {
    let background = draw::noise(&mut context.rng);
    context.bench.lay(&background);
    for enabled in 0..=255_u8 {
        for ime in SWITCHES {
            for low in [0x00, !enabled & 0x1F] {
                context.bench.poke(IE, enabled);
                context.bench.poke(IF, low | (context.rng.byte() & 0xE0));
                let state = State {
                    ime,
                    mode: Mode::Halted,
                    ..draw::state(&mut context.rng)
                };
                context.lone_step(state)?;
            }
        }
    }
    Ok(())
}

#[cfg(test)]
mod tests {
    use super::words;

    #[test]
    fn every_word_once() {
        let mut all = words(2);
        all.sort();
        all.dedup();
        assert_eq!(all.len(), 36);
    }
}
