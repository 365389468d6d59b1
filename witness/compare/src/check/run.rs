//! A run by each judge: the second program's own, single steps added up, mGBA's
//! steps added up, and the plain and the proved core's own.

use super::Verdict;
use crate::answer::{same, same_answer, same_block, same_bytes, Answer};
use crate::bench::{Bench, Judged};
use crate::input::Input;
use crate::paper;
use crate::{plain, proved};
use second::{Mode, State};

/// What a run answers and the memory that it leaves.
pub struct Ran {
    pub answer: Answer,
    pub memory: Vec<u8>,
}

pub fn run(bench: &mut Bench, input: &Input) -> Verdict {
    let (state, memory, budget) = (input.state, &input.bytes, input.number);
    let ran = by_second(state, memory, budget);
    same_run(
        "the second program's run",
        &by_steps(state, memory, budget),
        &ran,
    )?;
    within_budget(&ran.answer, budget)?;
    let mgba = by_mgba(bench, state, memory, budget);
    if let Some(given) = &mgba {
        same_run("the second program (expected) and mGBA", &ran, given)?;
    }
    Ok(Judged {
        second: true,
        mgba: mgba.is_some(),
        plain: hold_to_plain(input, &ran)?,
        proved: hold_to_proved(input, &ran)?,
        paper: true,
    })
}

pub fn same_run(who: &str, expected: &Ran, given: &Ran) -> Result<(), String> {
    same_answer(who, &expected.answer, &given.answer)?;
    same_bytes(&format!("{who}: memory"), &expected.memory, &given.memory)
}

/// A run that ends with 0 spends at least the budget and at most 5 more.
fn within_budget(answer: &Answer, budget: u32) -> Result<(), String> {
    let most = if budget == 0 {
        0
    } else {
        budget.saturating_add(5)
    };
    let held = answer.code != paper::DONE || (budget..=most).contains(&answer.spent);
    same("cycles within the budget and 5 more", true, held)
}

pub fn by_second(state: State, memory: &[u8], budget: u32) -> Ran {
    let mut memory = memory.to_vec();
    let answer = second::run(state, &mut memory, budget).into();
    Ran { answer, memory }
}

/// The same from single steps of the second program.
pub fn by_steps(state: State, memory: &[u8], budget: u32) -> Ran {
    let mut memory = memory.to_vec();
    let mut answer = Answer::refused(paper::run_code(&state, &memory, budget), state);
    while answer.code == paper::DONE && answer.spent < budget {
        let step = Answer::from(second::step(answer.state, &mut memory));
        answer = after(&answer, &step);
    }
    Ran { answer, memory }
}

/// The same from mGBA's steps. Nothing where it can't judge: a run that isn't begun,
/// or one without a step of its own.
pub fn by_mgba(bench: &mut Bench, state: State, memory: &[u8], budget: u32) -> Option<Ran> {
    let mut memory = memory.to_vec();
    let mut answer = Answer::refused(paper::run_code(&state, &memory, budget), state);
    let mut judged = false;
    while answer.code == paper::DONE && answer.spent < budget {
        judged |= mgba::judges(&answer.state, &memory);
        let step = mgba_step(bench, answer.state, &mut memory);
        answer = after(&answer, &step);
    }
    judged.then_some(Ran { answer, memory })
}

fn mgba_step(bench: &mut Bench, state: State, memory: &mut [u8]) -> Answer {
    if state.mode == Mode::Stopped {
        return Answer::refused(paper::STOPPED, state);
    }
    let outcome = bench.mgba_alone(&state, memory);
    match outcome.illegal {
        true => Answer::refused(paper::UNDEFINED, state),
        false => Answer::of_step(paper::DONE, outcome.cycles, outcome.state),
    }
}

/// A run's answer with one more step.
fn after(run: &Answer, step: &Answer) -> Answer {
    Answer {
        code: step.code,
        spent: run.spent + step.spent,
        steps: run.steps + step.steps,
        state: step.state,
    }
}

pub fn by_plain(state: State, memory: &[u8], budget: u32) -> Ran {
    let mut memory = memory.to_vec();
    let answer = plain::run(state, &mut memory, budget);
    Ran { answer, memory }
}

pub fn hold_to_plain(input: &Input, ran: &Ran) -> Result<bool, String> {
    let given = by_plain(input.state, &input.bytes, input.number);
    same_run("the plain core's run", ran, &given)?;
    Ok(true)
}

pub fn hold_to_proved(input: &Input, ran: &Ran) -> Result<bool, String> {
    let mut block = paper::block(&input.state);
    let mut memory = input.bytes.clone();
    if let Some(numbers) = proved::run(&mut block, &mut memory, input.number) {
        same_block("the proved core's run", &ran.answer, numbers, &block)?;
        same_bytes("the proved core's memory", &ran.memory, &memory)?;
    }
    Ok(proved::PRESENT)
}
