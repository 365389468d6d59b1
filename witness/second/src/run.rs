//! A run: steps until a budget of cycles is met.

use crate::memory::Memory;
use crate::refusal;
use crate::state::State;
use crate::step::step_valid;

/// The highest budget that a run accepts.
pub const BUDGET_LIMIT: u32 = 1_048_576;

/// What a run answers.
#[derive(Clone, Copy, PartialEq, Eq, Debug, Default)]
pub struct Ran {
    pub code: u8,
    pub spent: u32,
    pub steps: u32,
    pub state: State,
}

/// Takes steps while fewer cycles than the budget are spent. A refused step
/// ends the run and leaves the steps before it.
pub fn run(state: State, memory: &mut [u8], budget: u32) -> Ran {
    let memory = match memory.try_into() {
        Ok(memory) => memory,
        Err(_) => return not_begun(refusal::MEMORY_LENGTH, state),
    };
    if !state.flags_are_valid() {
        return not_begun(refusal::FLAG_BITS, state);
    }
    if budget > BUDGET_LIMIT {
        return not_begun(refusal::BUDGET, state);
    }
    take_steps(state, memory, budget)
}

fn not_begun(code: u8, state: State) -> Ran {
    Ran {
        code,
        spent: 0,
        steps: 0,
        state,
    }
}

fn take_steps(state: State, memory: &mut Memory, budget: u32) -> Ran {
    let mut ran = not_begun(refusal::DONE, state);
    while ran.spent < budget {
        let stepped = step_valid(ran.state, memory);
        if stepped.code != refusal::DONE {
            ran.code = stepped.code;
            break;
        }
        ran.spent += u32::from(stepped.cycles);
        ran.steps += 1;
        ran.state = stepped.state;
    }
    ran
}
