use core::fmt::{self, Display, Formatter};
#[cfg(feature = "std")]
use std::{vec, vec::Vec};

use crate::link;
use crate::refusal::Refusal;

/// Why a text was not assembled: the first line that is at fault, and its refusal.
///
/// ```
/// use trnadulek::{assemble, Fault, Refusal};
///
/// let fault = assemble(b"NOP\nLD A,256\n", 0x0150, &mut [0; 9]).unwrap_err();
/// assert_eq!(fault, Fault { line: 2, refusal: Refusal::Range });
/// assert_eq!(fault.to_string(), "line 2: number or value out of range");
/// ```
#[derive(Clone, Copy, PartialEq, Eq, Hash, Debug)]
pub struct Fault {
    /// The number of the line, counted from 1.
    pub line: usize,
    /// [`Refusal::Line`], [`Refusal::Nesting`], [`Refusal::Range`] or [`Refusal::Room`].
    pub refusal: Refusal,
}

impl Display for Fault {
    fn fmt(&self, out: &mut Formatter<'_>) -> fmt::Result {
        write!(out, "line {}: {}", self.line, self.refusal)
    }
}

#[cfg(feature = "std")]
impl std::error::Error for Fault {
    fn source(&self) -> Option<&(dyn std::error::Error + 'static)> {
        Some(&self.refusal)
    }
}

/// Assembles a text: lines of spelling as [`list`](crate::list) writes them behind the address and
/// the bytes, each of either edition, to bytes. The first line has the address `first`. The bytes are
/// at the front of `out`, and how many there are is the answer; the bytes of `out` past them are
/// unchanged.
///
/// Every line ends in a line feed, the last one too. Names, capitals, commas and spaces are the
/// listing's. Where the listing has a number, a line may have any constant: decimal numbers, numbers
/// of hexadecimal digits behind `$`, and constants in round brackets, joined by `+` or `-`, the first
/// perhaps after a minus. A number is at most 65,535, and the value must be in the operand's range: a
/// byte from -128 to 255, a word or an address from -32,768 to 65,535, the address of LDH one from
/// `$FF00` on, the target of JR within reach, what is added to SP from -128 to 127, a bit number from
/// 0 to 7, a vector one of the eight.
///
/// # Errors
///
/// Refused for the first line at fault, and of it, in this order, for its form, for round brackets
/// that are nested deeper than 16, for a number or a value out of range, and for the room, where its
/// bytes do not fit behind those before it; then `out` is unchanged. Room of exactly as many bytes as
/// there are is enough, and so is one of the text's own length, since no line has more bytes than
/// characters.
///
/// ```
/// use trnadulek::{assemble, Fault, Refusal};
///
/// let (text, mut out) = (b"JR NZ,$0150-6\nDB $D3\n", [0xEE; 4]);
/// assert_eq!(assemble(text, 0x0150, &mut out), Ok(3));
/// assert_eq!(out, [0x20, 0xF8, 0xD3, 0xEE]);
///
/// let refused = assemble(text, 0x0150, &mut out[..2]);
/// assert_eq!(refused, Err(Fault { line: 2, refusal: Refusal::Room }));
/// let refused = assemble(b"NOP\nld a,5\n", 0x0150, &mut out);
/// assert_eq!(refused, Err(Fault { line: 2, refusal: Refusal::Line }));
/// ```
pub fn assemble(text: &[u8], first: u16, out: &mut [u8]) -> Result<usize, Fault> {
    let (mut line, mut length) = (0, 0);
    let code = link::assemble(text, first, out, &mut line, &mut length);
    match Refusal::judge(code) {
        Ok(()) => Ok(length),
        Err(refusal) => Err(Fault { line, refusal }),
    }
}

/// The bytes that [`assemble`] writes, as a vector. This needs the feature `std`.
///
/// # Errors
///
/// As [`assemble`], but never for the room.
///
/// ```
/// use trnadulek::{assembled, listing, Edition};
///
/// let bytes = assembled(b"LDI [HL],A\nLDH [$FF80],A\n", 0x0150)?;
/// assert_eq!(bytes, [0x22, 0xE0, 0x80]);
///
/// // The spellings of a listing give its bytes back.
/// let text = listing(&bytes, 0x0150, Edition::Old);
/// let spellings = text.lines().map(|line| line.splitn(3, ' ').nth(2).unwrap());
/// let spellings: String = spellings.map(|spelling| format!("{spelling}\n")).collect();
/// assert_eq!(assembled(spellings.as_bytes(), 0x0150)?, bytes);
/// # Ok::<(), trnadulek::Fault>(())
/// ```
#[cfg(feature = "std")]
pub fn assembled(text: &[u8], first: u16) -> Result<Vec<u8>, Fault> {
    let mut bytes = vec![0; text.len()];
    let length = assemble(text, first, &mut bytes)?;
    bytes.truncate(length);
    Ok(bytes)
}
