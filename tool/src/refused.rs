//! A refusal by its number and in the library's words, then what was found and what was wanted.

use trnadulek::{Refusal, HEAD_SIZE, IMAGE_SIZE, MEMORY_SIZE};

use crate::input::Input;
use crate::words;

pub fn said(refusal: Refusal, found: &str) -> String {
    format!("refusal {}: {refusal}; {found}", refusal.number())
}

/// Of bytes that were to be a memory.
pub fn as_memory(refusal: Refusal, input: &Input) -> String {
    let wanted = words::grouped(MEMORY_SIZE as u64);
    said(
        refusal,
        &format!("found {} bytes, wanted {wanted}", input.length),
    )
}

/// Of bytes that were to be an image, or also could have been a head.
pub fn as_saved(refusal: Refusal, input: &Input, head_too: bool) -> String {
    let head = &input.bytes;
    let found = match refusal {
        Refusal::Length => wrong_length(&input.length, head_too),
        Refusal::Version => byte(head, 0, "the version", "1"),
        Refusal::BlockLength if number(head, 1) != 14 => length(head, 1, "14"),
        Refusal::BlockLength => length(head, 19, "65,536"),
        Refusal::StateCode if head[17] > 2 => byte(head, 17, "IME", "0 to 2"),
        Refusal::StateCode => byte(head, 18, "the mode", "0 to 3"),
        Refusal::FlagBits => flags("byte 6, F", head[6]),
        _ => return format!("refusal {}: {refusal}", refusal.number()),
    };
    said(refusal, &found)
}

fn wrong_length(found: &str, head_too: bool) -> String {
    let image = format!("{} for an image", words::grouped(IMAGE_SIZE as u64));
    let wanted = match head_too {
        true => format!("{HEAD_SIZE} for a head or {image}"),
        false => image,
    };
    format!("found {found} bytes, wanted {wanted}")
}

fn byte(head: &[u8], at: usize, what: &str, wanted: &str) -> String {
    format!("byte {at}, {what}: found {}, wanted {wanted}", head[at])
}

fn length(head: &[u8], at: usize, wanted: &str) -> String {
    let found = words::grouped(u64::from(number(head, at)));
    format!("bytes {at} to {}: found {found}, wanted {wanted}", at + 3)
}

fn number(head: &[u8], at: usize) -> u32 {
    head[at..at + 4]
        .iter()
        .fold(0, |sum, byte| sum << 8 | u32::from(*byte))
}

pub fn flags(place: &str, f: u8) -> String {
    format!("{place}: found ${f:02X}, wanted 0 as its second digit")
}
