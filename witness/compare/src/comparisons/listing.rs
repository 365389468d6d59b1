//! Listings in both editions: every opcode with operands at the edges, each cut at
//! every length; random parts, some of them longer than a memory. And numbers that are
//! no edition's.

use crate::answer::hex;
use crate::context::{Context, Failure, Outcome};
use crate::draw;
use crate::input::Input;
use crate::paper::{MEMORY_SIZE, NEW, OLD, PREFIX, STOP, UNDEFINED_BYTES};
use random::Random;

pub const EDITIONS: [u32; 2] = [NEW, OLD];

/// First addresses on both sides of where something turns over.
pub const FIRSTS: [u16; 8] = [
    0x0000, 0x0001, 0x7FFE, 0x7FFF, 0x8000, 0xFFFD, 0xFFFE, 0xFFFF,
];

pub const WORDS: [u16; 7] = [0x0000, 0x00FF, 0x0100, 0x7FFF, 0x8000, 0xFF00, 0xFFFF];
const BYTES: [u8; 5] = [0x00, 0x01, 0x7F, 0x80, 0xFF];

pub fn listing(context: &mut Context) -> Outcome {
    example(context)?;
    old_spellings(context)?;
    for first in FIRSTS {
        opcodes(context, first)?;
        other_numbers(context, first)?;
    }
    every_pair(context)?;
    random_parts(context)?;
    random_numbers(context)
}

/// A part in both editions.
fn check(context: &mut Context, first: u16, part: &[u8]) -> Outcome {
    for edition in EDITIONS {
        context.check(Input::list(part.to_vec(), first, edition))?;
    }
    Ok(())
}

/// What document 02 gives for its example, which has none of the eight opcodes.
fn example(context: &mut Context) -> Outcome {
    let lines = "0150 20F8 JR NZ,$014A\n0152 D3 DB $D3\n";
    for edition in EDITIONS {
        given(context, &[0x20, 0xF8, 0xD3], edition, lines)?;
    }
    Ok(())
}

/// What the remarks of documents 002 to 004 have for the eight opcodes, with addresses in
/// the place of n16 and without the space after the comma, which no listing has.
const OLD_SPELLINGS: [(&[u8], &str); 16] = [
    (&[0x22], "LDI [HL],A"),
    (&[0x2A], "LDI A,[HL]"),
    (&[0x32], "LDD [HL],A"),
    (&[0x3A], "LDD A,[HL]"),
    (&[0xE2], "LDIO [C],A"),
    (&[0xF2], "LDIO A,[C]"),
    (&[0xE0, 0x00], "LDIO [$FF00],A"),
    (&[0xE0, 0x0F], "LDIO [$FF0F],A"),
    (&[0xE0, 0x7F], "LDIO [$FF7F],A"),
    (&[0xE0, 0x80], "LDIO [$FF80],A"),
    (&[0xE0, 0xFF], "LDIO [$FFFF],A"),
    (&[0xF0, 0x00], "LDIO A,[$FF00]"),
    (&[0xF0, 0x0F], "LDIO A,[$FF0F]"),
    (&[0xF0, 0x7F], "LDIO A,[$FF7F]"),
    (&[0xF0, 0x80], "LDIO A,[$FF80]"),
    (&[0xF0, 0xFF], "LDIO A,[$FFFF]"),
];

fn old_spellings(context: &mut Context) -> Outcome {
    for (part, spelling) in OLD_SPELLINGS {
        let line = format!("0150 {} {spelling}\n", hex(part));
        given(context, part, OLD, &line)?;
    }
    Ok(())
}

/// A part whose listing from $0150 on a document gives.
fn given(context: &mut Context, part: &[u8], edition: u32, text: &str) -> Outcome {
    let input = Input::list(part.to_vec(), 0x0150, edition);
    let listed = second::listing(part, 0x0150, edition);
    if listed.as_deref() != Ok(text) {
        return Err(Failure {
            what: format!("a document has {text:?}, and the second program {listed:?}"),
            input: Some(input),
        });
    }
    context.check(input)?;
    Ok(())
}

/// Every opcode with operands at the edges, whole and cut at every length.
fn opcodes(context: &mut Context, first: u16) -> Outcome {
    let operands: Vec<[u8; 2]> = WORDS
        .into_iter()
        .chain(BYTES.into_iter().map(u16::from))
        .map(u16::to_le_bytes)
        .collect();
    for opcode in 0..=255 {
        for [low, high] in &operands {
            cut(context, first, &[opcode, *low, *high])?;
        }
        cut(context, first, &[PREFIX, opcode, 0x00])?;
    }
    Ok(())
}

fn cut(context: &mut Context, first: u16, part: &[u8]) -> Outcome {
    for length in 0..=part.len() {
        check(context, first, &part[..length])?;
    }
    Ok(())
}

/// Numbers that are no edition's: beside the two, at the limits of eight, sixteen and 32
/// bits, and those that are one of the two where only the low bits are looked at.
const OTHER_NUMBERS: [u32; 12] = [
    0,
    3,
    4,
    255,
    256,
    257,
    258,
    65_537,
    65_538,
    1 << 31,
    u32::MAX - 1,
    u32::MAX,
];

/// Nothing at all, an instruction, one that is cut, data, and some of the eight.
const OTHER_PARTS: [&[u8]; 5] = [
    &[],
    &[0x00],
    &[0xC3],
    &[0x20, 0xF8, 0xD3],
    &[0x22, 0x3A, 0xE0, 0x80, 0xF2],
];

fn other_numbers(context: &mut Context, first: u16) -> Outcome {
    for edition in OTHER_NUMBERS {
        for part in OTHER_PARTS {
            context.check(Input::list(part.to_vec(), first, edition))?;
        }
    }
    Ok(())
}

const RANDOM_NUMBERS: usize = 2_000;

fn random_numbers(context: &mut Context) -> Outcome {
    for _ in 0..RANDOM_NUMBERS {
        let rng = &mut context.rng;
        let length = rng.below(65) as usize;
        let (part, first) = (random_part(rng, length), draw::address(rng));
        let edition = draw::no_edition(rng);
        context.check(Input::list(part, first, edition))?;
    }
    Ok(())
}

/// Every byte before every other, and so every operand of one byte and all that a
/// $10 can stand before.
fn every_pair(context: &mut Context) -> Outcome {
    for word in 0..=0xFFFF_u16 {
        check(context, 0x0150, &word.to_be_bytes())?;
    }
    Ok(())
}

/// How many random parts there are, and the length that they stay below.
pub const RANDOM_PARTS: [(usize, u32); 3] = [(4_000, 65), (100, 4_097), (20, 70_001)];
pub const LONG_PARTS: [usize; 4] = [MEMORY_SIZE - 1, MEMORY_SIZE, MEMORY_SIZE + 1, 70_000];

fn random_parts(context: &mut Context) -> Outcome {
    for (count, limit) in RANDOM_PARTS {
        for _ in 0..count {
            let length = context.rng.below(limit);
            check_random(context, length as usize)?;
        }
    }
    for length in LONG_PARTS {
        check_random(context, length)?;
    }
    Ok(())
}

fn check_random(context: &mut Context, length: usize) -> Outcome {
    let part = random_part(&mut context.rng, length);
    let first = draw::address(&mut context.rng);
    check(context, first, &part)
}

pub fn random_part(rng: &mut Random, length: usize) -> Vec<u8> {
    match rng.one_in(3) {
        true => (0..length).map(|_| odd_byte(rng)).collect(),
        false => rng.bytes(length),
    }
}

/// A byte that a listing has a rule of its own for: STOP and what it stands before, the
/// prefix, JR, both offsets, a jump, the eight of the old edition, and those that are
/// undefined.
fn odd_byte(rng: &mut Random) -> u8 {
    let odd = [
        STOP, STOP, 0x00, 0x00, PREFIX, 0x18, 0x20, 0xE8, 0xF8, 0xC3, 0x22, 0x2A, 0x32, 0x3A, 0xE0,
        0xE2, 0xF0, 0xF2,
    ];
    match rng.one_in(8) {
        true => rng.pick(&UNDEFINED_BYTES),
        false => rng.pick(&odd),
    }
}
