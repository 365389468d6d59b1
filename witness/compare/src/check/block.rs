//! Any 14 bytes as a state block, which only the proved core's C interface takes.

use super::saved::BEFORE;
use super::Verdict;
use crate::answer::{same, same_bytes};
use crate::bench::Judged;
use crate::input::Input;
use crate::paper::{self, BUDGET_LIMIT, DONE, HEAD_SIZE, IMAGE_SIZE, MEMORY_SIZE, STATE_CODE};
use crate::proved::{self, Block};

/// Saving the block as a head to a slice of some length, as an image, and where a code of it is out
/// of range a step and a run of it.
pub fn block(input: &Input) -> Verdict {
    if !proved::PRESENT {
        return Ok(Judged::default());
    }
    let block = Block::try_from(&input.bytes[..]).map_err(|_| "a block is 14 bytes")?;
    save_as_head(&block, input.number as usize)?;
    save_as_image(&block)?;
    if has_wrong_code(&block) {
        is_refused_first(&block)?;
    }
    Ok(Judged {
        proved: true,
        paper: true,
        ..Judged::default()
    })
}

fn has_wrong_code(block: &Block) -> bool {
    block[12] > 2 || block[13] > 3
}

fn save_code(block: &Block, room_is_right: bool) -> u8 {
    if has_wrong_code(block) {
        STATE_CODE
    } else if !room_is_right {
        paper::SLICE_LENGTH
    } else if block[1] & 0x0F != 0 {
        paper::FLAG_BITS
    } else {
        DONE
    }
}

fn save_as_head(block: &Block, room: usize) -> Result<(), String> {
    let mut head = vec![BEFORE; room];
    let code = save_code(block, room == HEAD_SIZE);
    let given = proved::save_head(block, &mut head);
    same("the proved core's saving of a block", Some(code), given)?;
    match code {
        DONE => same_bytes("the block in a head", block, &head[5..19]),
        _ => same_bytes("a slice not saved to", &vec![BEFORE; room], &head),
    }
}

fn save_as_image(block: &Block) -> Result<(), String> {
    let memory = vec![BEFORE; MEMORY_SIZE];
    let mut image = vec![BEFORE; IMAGE_SIZE];
    let code = save_code(block, true);
    let given = proved::save_image(block, &memory, &mut image);
    same("the proved core's saving as an image", Some(code), given)?;
    match code {
        DONE => same_bytes("the block in an image", block, &image[5..19]),
        _ => same_bytes("an image not saved to", &vec![BEFORE; IMAGE_SIZE], &image),
    }
}

/// Memory lengths and budgets that are right and wrong: the code comes before them.
const BESIDE: [(usize, u32); 4] = [
    (MEMORY_SIZE, 1),
    (MEMORY_SIZE, BUDGET_LIMIT + 1),
    (MEMORY_SIZE - 1, 0),
    (0, u32::MAX),
];

fn is_refused_first(block: &Block) -> Result<(), String> {
    for (length, budget) in BESIDE {
        let mut memory = vec![BEFORE; length];
        let mut after = *block;
        let step = proved::step(&mut after, &mut memory);
        same("the proved core's step", Some((STATE_CODE, 0, 0)), step)?;
        let run = proved::run(&mut after, &mut memory, budget);
        same("the proved core's run", Some((STATE_CODE, 0, 0)), run)?;
        same_bytes("the block of a refused step and run", block, &after)?;
        same_bytes("the memory beside it", &vec![BEFORE; length], &memory)?;
    }
    Ok(())
}
