//! An image run where it lies: what is left is the save of what a run of its state and memory
//! leaves.

use super::run::{by_mgba, by_plain, by_second, same_run, Ran};
use super::Verdict;
use crate::answer::{same, same_bytes, Answer};
use crate::bench::{Bench, Judged};
use crate::input::Input;
use crate::paper::{self, DONE, HEAD_SIZE, IMAGE_SIZE};
use crate::proved;
use second::State;

pub fn run_image(bench: &mut Bench, input: &Input) -> Verdict {
    let (image, budget) = (&input.bytes, input.number);
    let (code, state) = match image.len() {
        IMAGE_SIZE => paper::load(&image[..HEAD_SIZE]),
        _ => (paper::SLICE_LENGTH, State::default()),
    };
    let (opened, _, _) = second::open_image(image);
    same("the second program's opening", code, opened)?;
    if code != DONE {
        hold_to_proved(input, &Answer::refused(code, state), image)?;
        return Ok(judged(false, false));
    }
    let memory = &image[HEAD_SIZE..];
    let ran = by_second(state, memory, budget);
    begun_as_paper_says(&state, &ran, image, budget)?;
    let plain = by_plain(state, memory, budget);
    same_run("the plain core's run", &ran, &plain)?;
    let mgba = by_mgba(bench, state, memory, budget);
    if let Some(given) = &mgba {
        same_run("the second program (expected) and mGBA", &ran, given)?;
    }
    hold_to_proved(input, &ran.answer, &saved(&ran)?)?;
    Ok(judged(mgba.is_some(), true))
}

fn judged(mgba: bool, plain: bool) -> Judged {
    Judged {
        second: true,
        mgba,
        plain,
        proved: proved::PRESENT,
        paper: true,
    }
}

/// A run that isn't begun leaves everything as it was; of another the code is 0, 3 or 4.
fn begun_as_paper_says(state: &State, ran: &Ran, image: &[u8], budget: u32) -> Result<(), String> {
    let memory = &image[HEAD_SIZE..];
    let code = paper::run_code(state, memory, budget);
    if code != DONE {
        same(
            "a run that isn't begun",
            Answer::refused(code, *state),
            ran.answer,
        )?;
        return same_bytes("the memory of a run that isn't begun", memory, &ran.memory);
    }
    let ends = [DONE, paper::STOPPED, paper::UNDEFINED];
    same("0, 3 or 4", true, ends.contains(&ran.answer.code))
}

/// The image that the second program saves of a run, which is the one that document 01 gives.
fn saved(ran: &Ran) -> Result<Vec<u8>, String> {
    let mut image = vec![0; IMAGE_SIZE];
    let code = second::save_image(ran.answer.state, &ran.memory, &mut image);
    same("the second program's saving", DONE, code)?;
    let wanted = [&paper::head(&ran.answer.state)[..], &ran.memory].concat();
    same_bytes("the second program's image", &wanted, &image)?;
    Ok(image)
}

fn hold_to_proved(input: &Input, answer: &Answer, expected: &[u8]) -> Result<(), String> {
    let mut image = input.bytes.clone();
    if let Some(numbers) = proved::run_image(&mut image, input.number) {
        same(
            "the proved core's run of an image",
            answer.numbers(),
            numbers,
        )?;
        same_bytes("the image that the proved core leaves", expected, &image)?;
    }
    Ok(())
}
