#[cfg(feature = "std")]
use std::{string::String, vec};

use crate::edition::Edition;
use crate::link;
use crate::refusal::Refusal;

/// The most bytes of text that a listing has for each byte listed, in either edition: room of the
/// part's length times this is always enough.
pub const LISTING_PER_BYTE: usize = 19;

/// Lists a part of a program as text, one line an instruction. The part's first byte has the address
/// `first`. The edition says how eight opcodes are spelled. The text is at the front of `out`, and its
/// length is the answer; the bytes of `out` past it are unchanged.
///
/// A line is four digits of the address, a space, the bytes, a space, the instruction and a line
/// feed. Every byte stands in one line. One that begins no instruction is data, `DB`: an undefined
/// opcode, a `$10` that no `$00` follows, and the first byte of an instruction that the part's end
/// cuts; the next byte is read afresh then. Addresses count modulo 65,536. The text is ASCII.
///
/// # Errors
///
/// Refused exactly where `out` is too short for the whole text; then it is unchanged. Room of exactly
/// the text's length is enough, and so is [`LISTING_PER_BYTE`] for each byte of the part. An
/// [`Edition`] is always one that the core has: a number that is none is refused where it is made
/// into one.
///
/// ```
/// use trnadulek::{list, Edition, Refusal};
///
/// let (part, mut out) = ([0x20, 0xF8, 0xD3], [b'.'; 40]);
/// let length = list(&part, 0x0150, Edition::New, &mut out)?;
/// assert_eq!(&out[..length], b"0150 20F8 JR NZ,$014A\n0152 D3 DB $D3\n");
/// assert_eq!(&out[length..], b"...");
///
/// let refused = list(&part, 0x0150, Edition::New, &mut out[..36]);
/// assert_eq!(refused, Err(Refusal::Room));
/// # Ok::<(), Refusal>(())
/// ```
pub fn list(part: &[u8], first: u16, edition: Edition, out: &mut [u8]) -> Result<usize, Refusal> {
    let mut length = 0;
    let code = link::list(part, first, edition.number(), out, &mut length);
    Refusal::judge(code)?;
    Ok(length)
}

/// The text that [`list`] writes, as a string. This needs the feature `std`.
///
/// # Panics
///
/// Where [`LISTING_PER_BYTE`] times the length of the part is more than a vector can have.
///
/// ```
/// use trnadulek::{listing, Edition};
///
/// let part = [0x22, 0xE0, 0x80];
/// let text = listing(&part, 0x0150, Edition::New);
/// assert_eq!(text, "0150 22 LD [HLI],A\n0151 E080 LDH [$FF80],A\n");
/// let text = listing(&part, 0x0150, Edition::Old);
/// assert_eq!(text, "0150 22 LDI [HL],A\n0151 E080 LDIO [$FF80],A\n");
/// ```
#[cfg(feature = "std")]
pub fn listing(part: &[u8], first: u16, edition: Edition) -> String {
    let mut text = vec![0; part.len().saturating_mul(LISTING_PER_BYTE)];
    let length = list(part, first, edition, &mut text).expect("the bound is room for every text");
    text.truncate(length);
    String::from_utf8(text).expect("a listing is ASCII")
}
