//! One step, on a memory of any length.

use super::Verdict;
use crate::answer::{same_answer, same_block, same_bytes, Answer};
use crate::bench::{Bench, Judged};
use crate::input::Input;
use crate::paper;
use crate::{plain, proved};

pub fn step(bench: &mut Bench, input: &Input) -> Verdict {
    if input.bytes.len() != paper::MEMORY_SIZE {
        return wrong_length(input);
    }
    bench.lay(&input.bytes);
    let step = bench.step(input.state);
    bench.recover();
    step.map(|step| step.judged)
}

/// Refused before anything else is looked at, F too.
fn wrong_length(input: &Input) -> Verdict {
    let expected = Answer::refused(paper::MEMORY_LENGTH, input.state);
    let mut memory = input.bytes.clone();
    let answer = Answer::from(second::step(input.state, &mut memory));
    same_answer("the second program and document 01", &expected, &answer)?;
    same_bytes("the second program's memory", &input.bytes, &memory)?;
    let answer = plain::step(input.state, &mut memory);
    same_answer("the plain core", &expected, &answer)?;
    same_bytes("the plain core's memory", &input.bytes, &memory)?;
    let mut block = paper::block(&input.state);
    if let Some(numbers) = proved::step(&mut block, &mut memory) {
        same_block("the proved core", &expected, numbers, &block)?;
        same_bytes("the proved core's memory", &input.bytes, &memory)?;
    }
    Ok(Judged {
        second: true,
        plain: true,
        proved: proved::PRESENT,
        paper: true,
        mgba: false,
    })
}
