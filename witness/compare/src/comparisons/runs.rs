//! Random steps, one alone and many in a row, and runs under budgets.

use crate::context::{Context, Outcome};
use crate::draw::{self, LIVE_MODES};
use crate::input::Input;
use crate::paper::{BUDGET_LIMIT, IE, IF, MEMORY_SIZE, UNDEFINED_BYTES};
use random::Random;
use second::{Mode, State};

const ANY_STATES: usize = 300_000;

/// States of any kind, refused ones too, on the same noise.
pub fn any(context: &mut Context) -> Outcome {
    let background = draw::noise(&mut context.rng);
    context.bench.lay(&background);
    for _ in 0..ANY_STATES {
        let state = any_state(&mut context.rng);
        raise(context);
        context.lone_step(state)?;
    }
    Ok(())
}

pub fn any_state(rng: &mut Random) -> State {
    let mut state = draw::state(rng);
    state.mode = rng.pick(&LIVE_MODES);
    if rng.one_in(16) {
        state.mode = Mode::Stopped;
    }
    if rng.one_in(16) {
        state.f = rng.byte();
    }
    state
}

/// New IE and IF.
fn raise(context: &mut Context) {
    for address in [IE, IF] {
        let byte = context.rng.byte() & context.rng.byte();
        context.bench.poke(address, byte);
    }
}

const WALKS: usize = 4_000;
const WALKS_ON_A_MEMORY: usize = 100;
const LONGEST_WALK: usize = 100;

/// Step after step, with requests raised on the way, until one is refused.
pub fn walks(context: &mut Context) -> Outcome {
    for n in 0..WALKS {
        if n % WALKS_ON_A_MEMORY == 0 {
            let background = some_noise(&mut context.rng);
            context.bench.lay(&background);
        }
        walk(context)?;
        context.bench.rewind();
    }
    Ok(())
}

/// Noise, tame three times in four.
pub fn some_noise(rng: &mut Random) -> Vec<u8> {
    match rng.one_in(4) {
        true => draw::noise(rng),
        false => draw::tame_noise(rng),
    }
}

fn walk(context: &mut Context) -> Outcome {
    let mut state = draw::state(&mut context.rng);
    state.mode = context.rng.pick(&LIVE_MODES);
    for _ in 0..LONGEST_WALK {
        if context.rng.one_in(16) {
            raise(context);
        }
        let answer = context.step(state)?.answer;
        if answer.code != 0 {
            break;
        }
        state = answer.state;
    }
    Ok(())
}

const RUNS: usize = 2_000;

/// Runs from any state under random budgets.
pub fn runs(context: &mut Context) -> Outcome {
    for _ in 0..RUNS {
        let rng = &mut context.rng;
        let memory = some_noise(rng);
        let longest = rng.pick(&[10, 300, 10_000]);
        let budget = rng.below(longest);
        let state = any_state(rng);
        context.check(Input::run(state, memory, budget))?;
    }
    Ok(())
}

pub const BUDGETS: [u32; 12] = [
    0,
    1,
    2,
    3,
    4,
    5,
    6,
    7,
    BUDGET_LIMIT - 1,
    BUDGET_LIMIT,
    BUDGET_LIMIT + 1,
    u32::MAX,
];

/// Each budget on programs that go on for ever, end at once, or cost much.
pub fn budgets(context: &mut Context) -> Outcome {
    for (state, memory) in programs(&mut context.rng) {
        for budget in BUDGETS {
            context.check(Input::run(state, memory.clone(), budget))?;
        }
    }
    Ok(())
}

const AT: usize = 0x0200;

pub fn programs(rng: &mut Random) -> Vec<(State, Vec<u8>)> {
    let start = State {
        pc: AT as u16,
        sp: 0xE000,
        h: 0xC0,
        d: 0xD0,
        ..State::default()
    };
    let with = |bytes: &[u8]| (start, code(bytes));
    let in_mode = |mode, (state, memory): (State, Vec<u8>)| (State { mode, ..state }, memory);
    let dirty = State { f: 1, ..start };
    vec![
        with(&[]),
        with(&[0x18, 0xFE]),                               // JR to itself
        with(&[0xCD, AT as u8, (AT >> 8) as u8]),          // CALL itself
        with(&[0x34, 0x18, 0xFD]),                         // INC [HL], JR back
        with(&[0x2A, 0x12, 0x13, 0xC3, AT as u8, 2]),      // copy HL on to DE on
        with(&[0x76]),                                     // HALT
        with(&[0x10, 0x00]),                               // STOP
        with(&[0x00, 0x3C, UNDEFINED_BYTES[0]]),           // an end on the way
        with(&[0x3E, 0x1F, 0xE0, 0x0F, 0xFB, 0x18, 0xF9]), // raise all, EI, again
        in_mode(Mode::Halted, with(&[])),
        in_mode(Mode::Repeat, with(&[0x3C])),
        in_mode(Mode::Stopped, with(&[])),
        (dirty, code(&[])),
        (draw::state(rng), draw::tame_noise(rng)),
        (draw::state(rng), draw::tame_noise(rng)),
    ]
}

/// Zeros but for these bytes, every request enabled, and a RETI at each vector.
fn code(bytes: &[u8]) -> Vec<u8> {
    let mut memory = vec![0; MEMORY_SIZE];
    memory[AT..AT + bytes.len()].copy_from_slice(bytes);
    memory[usize::from(IE)] = 0x1F;
    for vector in (0x40..0x68).step_by(8) {
        memory[vector] = 0xD9;
    }
    memory
}

#[cfg(test)]
mod tests {
    use super::*;

    #[test]
    fn the_endless_programs_are_endless() {
        let programs = programs(&mut Random::new(1, "budgets"));
        let full = |(state, memory): &(State, Vec<u8>)| {
            let ran = second::run(*state, &mut memory.clone(), BUDGET_LIMIT);
            ran.code == 0 && ran.spent >= BUDGET_LIMIT
        };
        let endless = programs.iter().filter(|program| full(program)).count();
        assert!(endless >= 5, "{endless}");
    }
}
