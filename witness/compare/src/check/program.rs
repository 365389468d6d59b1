//! The program's text for an input, against the text that document 01 gives to
//! the run of each judge.

use super::run::{by_mgba, by_steps};
use super::Verdict;
use crate::answer::{same, Answer};
use crate::bench::{Bench, Judged};
use crate::input::Input;
use crate::paper::{self, DONE, HEAD_SIZE};
use crate::{plain, proved};
use second::State;

/// What the input of the program asks for.
struct Wanted<'a> {
    budget: u32,
    image: &'a [u8],
    state: State,
    memory: &'a [u8],
}

pub fn program(bench: &mut Bench, input: &Input) -> Verdict {
    let given = second::program(&input.bytes);
    let wanted = match read(&input.bytes) {
        Ok(wanted) => wanted,
        Err(code) => return refused(&input.bytes, code, &given),
    };
    let (state, memory, budget) = (wanted.state, wanted.memory, wanted.budget);
    let steps = by_steps(state, memory, budget).answer;
    same(
        "the second program's text",
        paper::text(&steps),
        given.clone(),
    )?;
    let mgba = by_mgba(bench, state, memory, budget);
    if let Some(ran) = &mgba {
        same(
            "mGBA (expected) and the text",
            paper::text(&ran.answer),
            given.clone(),
        )?;
    }
    let plain = plain::run(state, &mut memory.to_vec(), budget);
    same("the plain core's run as text", &given, &paper::text(&plain))?;
    if let Some(text) = proved_text(&wanted)? {
        same("the proved core's run as text", given, text)?;
    }
    Ok(Judged {
        second: true,
        mgba: mgba.is_some(),
        plain: true,
        proved: proved::PRESENT,
        paper: true,
    })
}

fn read(input: &[u8]) -> Result<Wanted<'_>, u8> {
    if input.len() != paper::INPUT_SIZE {
        return Err(paper::SLICE_LENGTH);
    }
    let budget = input[..4]
        .iter()
        .fold(0, |sum, byte| sum * 256 + u32::from(*byte));
    let image = &input[4..];
    let (head, memory) = image.split_at(HEAD_SIZE);
    let (code, state) = paper::load(head);
    if code != DONE {
        return Err(code);
    }
    Ok(Wanted {
        budget,
        image,
        state,
        memory,
    })
}

fn refused(input: &[u8], code: u8, given: &str) -> Verdict {
    same(
        "the second program's text",
        paper::refusal_text(code),
        given.to_string(),
    )?;
    let mut judged = Judged {
        second: true,
        paper: true,
        ..Judged::default()
    };
    if input.len() == paper::INPUT_SIZE {
        let loaded = proved::load_head(&input[4..4 + HEAD_SIZE]);
        judged.proved = loaded.is_some();
        same(
            "the proved core's load",
            code,
            loaded.map_or(code, |(code, _)| code),
        )?;
    }
    Ok(judged)
}

/// The text of the image's run on the proved core, with the state that it left in the head.
fn proved_text(wanted: &Wanted) -> Result<Option<String>, String> {
    let mut image = wanted.image.to_vec();
    let (code, spent, steps) = match proved::run_image(&mut image, wanted.budget) {
        Some(numbers) => numbers,
        None => return Ok(None),
    };
    let (loaded, state) = paper::load(&image[..HEAD_SIZE]);
    same("the head that the proved core leaves", DONE, loaded)?;
    Ok(Some(paper::text(&Answer {
        code,
        spent,
        steps,
        state,
    })))
}
