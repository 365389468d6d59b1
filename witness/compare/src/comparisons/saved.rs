//! Heads and images: every value of every byte, and there and back.

use crate::context::{Context, Outcome};
use crate::draw;
use crate::input::{Input, Kind};
use crate::paper::{self, HEAD_SIZE, IMAGE_SIZE};
use crate::proved;
use random::Random;
use second::{Ime, Mode, State};

const HEADS: usize = 8;

pub fn heads(context: &mut Context) -> Outcome {
    for state in states(&mut context.rng) {
        let head = paper::head(&state);
        for place in 0..HEAD_SIZE {
            for value in 0..=255 {
                load(context, &head, &[(place, value)])?;
            }
        }
        two_faults(context, &head)?;
        context.check(Input::new(
            Kind::SaveHead,
            state,
            HEAD_SIZE as u32,
            Vec::new(),
        ))?;
    }
    blocks(context)
}

/// The all-zero state, the fullest one, and random ones in every mode.
fn states(rng: &mut Random) -> Vec<State> {
    let full = State {
        a: 0xFF,
        f: 0xF0,
        b: 0xFF,
        c: 0xFF,
        d: 0xFF,
        e: 0xFF,
        h: 0xFF,
        l: 0xFF,
        sp: 0xFFFF,
        pc: 0xFFFF,
        ime: Ime::On,
        mode: Mode::Stopped,
    };
    let mut states = vec![State::default(), full];
    while states.len() < HEADS {
        let mode = rng.pick(&[Mode::Running, Mode::Repeat, Mode::Halted, Mode::Stopped]);
        let state = draw::state(rng);
        states.push(State { mode, ..state });
    }
    states
}

fn load(context: &mut Context, head: &[u8], faults: &[(usize, u8)]) -> Outcome {
    let mut head = head.to_vec();
    for (place, value) in faults {
        head[*place] = *value;
    }
    context.check(Input::bytes(Kind::Load, head))?;
    Ok(())
}

/// One fault of each kind: version, block lengths, codes, low bits of F.
pub const FAULTS: [(usize, u8); 9] = [
    (0, 2),
    (1, 1),
    (4, 15),
    (19, 1),
    (20, 0),
    (22, 255),
    (17, 3),
    (18, 4),
    (6, 1),
];

/// Two faults at once, which show the order of the refusals.
fn two_faults(context: &mut Context, head: &[u8]) -> Outcome {
    for one in FAULTS {
        for other in FAULTS {
            load(context, head, &[one, other])?;
        }
    }
    Ok(())
}

/// Where the codes of IME and mode stand in a block, and F.
const IME_PLACE: usize = 12;
const MODE_PLACE: usize = 13;
const F_PLACE: usize = 1;

/// State blocks with codes out of range and low bits of F, which only the C interface can
/// be given: each byte at each of its values, alone and beside a fault in F.
fn blocks(context: &mut Context) -> Outcome {
    if !proved::PRESENT {
        return Ok(());
    }
    for value in 0..=255 {
        for place in [F_PLACE, IME_PLACE, MODE_PLACE] {
            block(context, &[(place, value)])?;
            block(context, &[(F_PLACE, 0x01), (place, value)])?;
        }
    }
    Ok(())
}

fn block(context: &mut Context, faults: &[(usize, u8)]) -> Outcome {
    let mut block = paper::block(&State::default()).to_vec();
    for (place, value) in faults {
        block[*place] = *value;
    }
    for room in [HEAD_SIZE as u32 - 1, HEAD_SIZE as u32] {
        let input = Input::new(Kind::Block, State::default(), room, block.clone());
        context.check(input)?;
    }
    Ok(())
}

const IMAGES: usize = 200;

/// Every value of every head byte in an image; and random images there and back.
pub fn images(context: &mut Context) -> Outcome {
    let memory = draw::noise(&mut context.rng);
    let state = draw::state(&mut context.rng);
    let image = [&paper::head(&state)[..], &memory].concat();
    for place in 0..HEAD_SIZE {
        for value in 0..=255 {
            let mut image = image.clone();
            image[place] = value;
            context.check(Input::bytes(Kind::Open, image))?;
        }
    }
    for _ in 0..IMAGES {
        there_and_back(context)?;
    }
    Ok(())
}

/// The image that is opened is what document 01 says the saved one is.
fn there_and_back(context: &mut Context) -> Outcome {
    let memory = draw::noise(&mut context.rng);
    let state = draw::state(&mut context.rng);
    let image = [&paper::head(&state)[..], &memory].concat();
    context.check(Input::new(
        Kind::SaveImage,
        state,
        IMAGE_SIZE as u32,
        memory,
    ))?;
    context.check(Input::bytes(Kind::Open, image))?;
    Ok(())
}
