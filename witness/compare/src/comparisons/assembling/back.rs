//! The way back: the listing of a part in either edition, cut to its spellings and assembled
//! from the part's first address, gives the part.

use super::super::listing::{random_part, EDITIONS, FIRSTS, LONG_PARTS, RANDOM_PARTS, WORDS};
use super::{given, ADDRESS};
use crate::context::{Context, Failure, Outcome};
use crate::draw;
use crate::paper::{DONE, PREFIX};
use crate::proved;

/// What a listing may take for each byte.
const PER_BYTE: usize = 19;

pub fn round_trips(context: &mut Context) -> Outcome {
    for first in FIRSTS {
        opcodes(context, first)?;
    }
    for pair in 0..=0xFFFF_u16 {
        check(context, ADDRESS, &pair.to_be_bytes())?;
    }
    random_parts(context)
}

fn check(context: &mut Context, first: u16, part: &[u8]) -> Outcome {
    for edition in EDITIONS {
        let text = spellings(&listing(part, first, edition)?);
        given(context, &text, first, Ok(part))?;
    }
    Ok(())
}

/// The core's listing, where it is there, else the second program's.
fn listing(part: &[u8], first: u16, edition: u32) -> Result<Vec<u8>, Failure> {
    let mut out = vec![0; part.len() * PER_BYTE];
    let listed = proved::list(part, first, edition, &mut out)
        .unwrap_or_else(|| second::list(part, first, edition, &mut out));
    match listed {
        (DONE, length) => {
            out.truncate(length);
            Ok(out)
        }
        (code, _) => Err(Failure::of_harness(&format!(
            "a listing is refused with {code}"
        ))),
    }
}

/// The third column of each line, with the newline.
fn spellings(listing: &[u8]) -> Vec<u8> {
    let lines = listing.split_inclusive(|letter| *letter == b'\n');
    let columns = lines.map(|line| line.splitn(3, |letter| *letter == b' ').nth(2));
    columns.flatten().flatten().copied().collect()
}

/// Every opcode before words at the edges, and every prefixed one.
fn opcodes(context: &mut Context, first: u16) -> Outcome {
    for opcode in 0..=255 {
        for word in WORDS {
            let [low, high] = word.to_le_bytes();
            check(context, first, &[opcode, low, high])?;
        }
        check(context, first, &[PREFIX, opcode])?;
        check(context, first, &[opcode])?;
    }
    check(context, first, &[])
}

fn random_parts(context: &mut Context) -> Outcome {
    for (count, limit) in RANDOM_PARTS {
        for _ in 0..count {
            let length = context.rng.below(limit);
            check_random(context, length as usize)?;
        }
    }
    for length in LONG_PARTS {
        check_random(context, length)?;
    }
    Ok(())
}

fn check_random(context: &mut Context, length: usize) -> Outcome {
    let part = random_part(&mut context.rng, length);
    let first = draw::address(&mut context.rng);
    check(context, first, &part)
}
