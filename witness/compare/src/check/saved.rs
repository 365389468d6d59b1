//! Loading and saving, held against the saved form as document 01 gives it.

use super::Verdict;
use crate::answer::{hex, same, same_bytes};
use crate::bench::Judged;
use crate::input::Input;
use crate::paper::{self, DONE, HEAD_SIZE, IMAGE_SIZE};
use crate::proved::{self, Block, REFUSED_BLOCK};
use second::State;

/// What stands in a slice before something is saved to it.
pub const BEFORE: u8 = 0xA5;

fn by_paper() -> Judged {
    Judged {
        second: true,
        proved: proved::PRESENT,
        paper: true,
        ..Judged::default()
    }
}

pub fn load(input: &Input) -> Verdict {
    let expected = paper::load(&input.bytes);
    same(
        "the second program's load",
        expected,
        second::load_head(&input.bytes),
    )?;
    if expected.0 == DONE {
        let saved = second_saves_head(&expected.1, HEAD_SIZE);
        same_bytes("the second program's load and save", &input.bytes, &saved.1)?;
    }
    if let Some((code, block)) = proved::load_head(&input.bytes) {
        same_loaded("the proved core's load", &expected, code, &block)?;
    }
    Ok(by_paper())
}

pub fn open(input: &Input) -> Verdict {
    let image = &input.bytes;
    let expected = match image.len() {
        IMAGE_SIZE => paper::load(&image[..HEAD_SIZE]),
        _ => (paper::SLICE_LENGTH, State::default()),
    };
    let (code, state, part) = second::open_image(image);
    same("the second program's opening", expected, (code, state))?;
    match code {
        DONE => same(
            "the part lent",
            image[HEAD_SIZE..].as_ptr_range(),
            part.as_ptr_range(),
        )?,
        _ => same("the part of a refused image", 0, part.len())?,
    }
    if let Some((code, block)) = proved::open_image(image) {
        same_loaded("the proved core's opening", &expected, code, &block)?;
    }
    Ok(by_paper())
}

fn same_loaded(who: &str, expected: &(u8, State), code: u8, block: &Block) -> Result<(), String> {
    let wanted = match expected.0 {
        DONE => paper::block(&expected.1),
        _ => REFUSED_BLOCK,
    };
    same(who, (expected.0, hex(&wanted)), (code, hex(block)))
}

fn second_saves_head(state: &State, room: usize) -> (u8, Vec<u8>) {
    let mut head = vec![BEFORE; room];
    (second::save_head(*state, &mut head), head)
}

pub fn save_head(input: &Input) -> Verdict {
    let (state, room) = (&input.state, input.number as usize);
    let code = paper::save_code(state, None, room);
    let expected = match code {
        DONE => paper::head(state).to_vec(),
        _ => vec![BEFORE; room],
    };
    let (given, head) = second_saves_head(state, room);
    same("the second program's saving", code, given)?;
    same_bytes("the second program's head", &expected, &head)?;
    let mut head = vec![BEFORE; room];
    if let Some(given) = proved::save_head(&paper::block(state), &mut head) {
        same("the proved core's saving", code, given)?;
        same_bytes("the proved core's head", &expected, &head)?;
    }
    Ok(by_paper())
}

pub fn save_image(input: &Input) -> Verdict {
    let (state, memory, room) = (&input.state, &input.bytes, input.number as usize);
    let code = paper::save_code(state, Some(memory), room);
    let expected = match code {
        DONE => [&paper::head(state)[..], memory].concat(),
        _ => vec![BEFORE; room],
    };
    let mut image = vec![BEFORE; room];
    let given = second::save_image(*state, memory, &mut image);
    same("the second program's saving", code, given)?;
    same_bytes("the second program's image", &expected, &image)?;
    let mut image = vec![BEFORE; room];
    if let Some(given) = proved::save_image(&paper::block(state), memory, &mut image) {
        same("the proved core's saving", code, given)?;
        same_bytes("the proved core's image", &expected, &image)?;
    }
    Ok(by_paper())
}
