//! The proved core, through its C interface as the Rust wrapper declares it. This module is all
//! that knows it.
//!
//! Without the feature `proved` every call answers nothing.
//!
//! One rule is the interface's own and not document 01's: a state block with a code out of range is
//! refused with 9 before everything else.

/// The state block: the 14 bytes that stand inside a head.
pub type Block = [u8; 14];

/// What a refused load leaves in the state block: the all-zero state, Off and Running.
pub const REFUSED_BLOCK: Block = [0; 14];

/// Whether the proved core is one of the judges.
pub const PRESENT: bool = cfg!(feature = "proved");

/// Code, cycles and steps.
pub type Numbers = (u8, u32, u32);

/// What a step answers; the state block and the memory are changed in place.
pub fn step(state: &mut Block, memory: &mut [u8]) -> Option<Numbers> {
    call::step(state, memory).map(|(code, cycles)| (code, cycles.into(), u32::from(code == 0)))
}

/// What a run answers; the state block and the memory are changed in place.
pub fn run(state: &mut Block, memory: &mut [u8], budget: u32) -> Option<Numbers> {
    call::run(state, memory, budget)
}

/// What the run of an image answers; the image is changed in place.
pub fn run_image(image: &mut [u8], budget: u32) -> Option<Numbers> {
    call::run_image(image, budget)
}

/// Code and state block of a head.
pub fn load_head(head: &[u8]) -> Option<(u8, Block)> {
    call::load_head(head)
}

/// Code of saving a state block as a head.
pub fn save_head(block: &Block, head: &mut [u8]) -> Option<u8> {
    call::save_head(block, head)
}

/// Code and state block of an image.
pub fn open_image(image: &[u8]) -> Option<(u8, Block)> {
    call::open_image(image)
}

/// Code of saving a state block and a memory as an image.
pub fn save_image(block: &Block, memory: &[u8], image: &mut [u8]) -> Option<u8> {
    call::save_image(block, memory, image)
}

/// Code and length of a part's listing in an edition, which is written to the front of `out`.
pub fn list(part: &[u8], first: u16, edition: u32, out: &mut [u8]) -> Option<(u8, usize)> {
    call::list(part, first, edition, out)
}

/// Code, line at fault and length of a text's bytes, which are written to the front of `out`.
pub fn assemble(text: &[u8], first: u16, out: &mut [u8]) -> Option<(u8, usize, usize)> {
    call::assemble(text, first, out)
}

/// Length and untaken cycles of a row of the opcode table.
pub fn row(row: u32) -> Option<(u8, u8)> {
    call::row(row)
}

#[cfg(feature = "proved")]
mod call {
    use super::{Block, Numbers};
    use trnadulek::link;

    /// What stands where a call is to write, so that a call that writes nothing shows.
    const UNWRITTEN: u8 = 0xA5;
    const UNWRITTEN_COUNT: u32 = 0xA5A5;
    const UNWRITTEN_BLOCK: Block = [UNWRITTEN; 14];
    const UNWRITTEN_LENGTH: usize = 0xA5A5;

    pub fn step(state: &mut Block, memory: &mut [u8]) -> Option<(u8, u8)> {
        let mut cycles = UNWRITTEN;
        let code = link::step(state, memory, &mut cycles);
        Some((code, cycles))
    }

    pub fn run(state: &mut Block, memory: &mut [u8], budget: u32) -> Option<Numbers> {
        let (mut spent, mut steps) = (UNWRITTEN_COUNT, UNWRITTEN_COUNT);
        let code = link::run(state, memory, budget, &mut spent, &mut steps);
        Some((code, spent, steps))
    }

    pub fn run_image(image: &mut [u8], budget: u32) -> Option<Numbers> {
        let (mut spent, mut steps) = (UNWRITTEN_COUNT, UNWRITTEN_COUNT);
        let code = link::run_image(image, budget, &mut spent, &mut steps);
        Some((code, spent, steps))
    }

    pub fn load_head(head: &[u8]) -> Option<(u8, Block)> {
        let mut block = UNWRITTEN_BLOCK;
        let code = link::load_head(head, &mut block);
        Some((code, block))
    }

    pub fn save_head(block: &Block, head: &mut [u8]) -> Option<u8> {
        Some(link::save_head(block, head))
    }

    pub fn open_image(image: &[u8]) -> Option<(u8, Block)> {
        let mut block = UNWRITTEN_BLOCK;
        let code = link::open_image(image, &mut block);
        Some((code, block))
    }

    pub fn save_image(block: &Block, memory: &[u8], image: &mut [u8]) -> Option<u8> {
        Some(link::save_image(block, memory, image))
    }

    pub fn list(part: &[u8], first: u16, edition: u32, out: &mut [u8]) -> Option<(u8, usize)> {
        let mut length = UNWRITTEN_LENGTH;
        let code = link::list(part, first, edition, out, &mut length);
        Some((code, length))
    }

    pub fn assemble(text: &[u8], first: u16, out: &mut [u8]) -> Option<(u8, usize, usize)> {
        let (mut line, mut length) = (UNWRITTEN_LENGTH, UNWRITTEN_LENGTH);
        let code = link::assemble(text, first, out, &mut line, &mut length);
        Some((code, line, length))
    }

    pub fn row(row: u32) -> Option<(u8, u8)> {
        Some((link::length(row), link::untaken_cycles(row)))
    }
}

#[cfg(not(feature = "proved"))]
mod call {
    use super::{Block, Numbers};

    pub fn step(_: &mut Block, _: &mut [u8]) -> Option<(u8, u8)> {
        None
    }

    pub fn run(_: &mut Block, _: &mut [u8], _: u32) -> Option<Numbers> {
        None
    }

    pub fn run_image(_: &mut [u8], _: u32) -> Option<Numbers> {
        None
    }

    pub fn load_head(_: &[u8]) -> Option<(u8, Block)> {
        None
    }

    pub fn save_head(_: &Block, _: &mut [u8]) -> Option<u8> {
        None
    }

    pub fn open_image(_: &[u8]) -> Option<(u8, Block)> {
        None
    }

    pub fn save_image(_: &Block, _: &[u8], _: &mut [u8]) -> Option<u8> {
        None
    }

    pub fn list(_: &[u8], _: u16, _: u32, _: &mut [u8]) -> Option<(u8, usize)> {
        None
    }

    pub fn assemble(_: &[u8], _: u16, _: &mut [u8]) -> Option<(u8, usize, usize)> {
        None
    }

    pub fn row(_: u32) -> Option<(u8, u8)> {
        None
    }
}
