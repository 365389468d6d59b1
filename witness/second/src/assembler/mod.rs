//! The assembler of M-103: lines of spelling, in either edition, as bytes. It reads a
//! line from the left, as a scanner, and knows nothing of how a listing is written.

mod constant;
mod operand;
mod spelled;

use crate::refusal;
use spelled::Spelled;

/// What an assembly answers: the code, the number from 1 of the line at fault or 0, and
/// how much was written to the front of the output.
#[derive(Clone, Copy, PartialEq, Eq, Debug)]
pub struct Assembled {
    pub code: u8,
    pub line: usize,
    pub length: usize,
}

/// Why a text was refused, and the number of the line at fault, from 1.
#[derive(Clone, Copy, PartialEq, Eq, Debug)]
pub struct Fault {
    pub code: u8,
    pub line: usize,
}

/// Assembles a text from an address on, to the front of `out`. A refused one writes
/// nothing.
pub fn assemble(text: &[u8], first: u16, out: &mut [u8]) -> Assembled {
    match assembly(text, first, out.len()) {
        Ok(bytes) => {
            out[..bytes.len()].copy_from_slice(&bytes);
            Assembled {
                code: refusal::DONE,
                line: 0,
                length: bytes.len(),
            }
        }
        Err(Fault { code, line }) => Assembled {
            code,
            line,
            length: 0,
        },
    }
}

/// All bytes of a text that begins at an address, if they are no more than there is room for.
pub fn assembly(text: &[u8], first: u16, room: usize) -> Result<Vec<u8>, Fault> {
    let mut bytes = Vec::new();
    let lines = text.split_inclusive(|letter| *letter == b'\n');
    for (line, number) in lines.zip(1..) {
        let address = first.wrapping_add(bytes.len() as u16);
        let fault = |code| Fault { code, line: number };
        let taken = assembled_line(line, address).map_err(fault)?;
        if taken.len() > room - bytes.len() {
            return Err(fault(refusal::ROOM));
        }
        bytes.extend(taken);
    }
    Ok(bytes)
}

/// The bytes of one line at an address, the newline at its end included, or its code.
pub fn assembled_line(line: &[u8], address: u16) -> Result<Vec<u8>, u8> {
    let line = line.strip_suffix(b"\n").ok_or(refusal::LINE)?;
    let spelled = read(line).ok_or(refusal::LINE)?;
    if spelled.depth() > constant::DEEPEST {
        return Err(refusal::NESTING);
    }
    spelled.bytes(address).ok_or(refusal::RANGE)
}

/// A line of letters, or of letters, one space and operands; its form alone is judged.
fn read(line: &[u8]) -> Option<Spelled> {
    let (name, rest) = operand::name(line);
    let operands = match rest {
        [] => Vec::new(),
        [b' ', rest @ ..] => operand::operands(rest)?,
        _ => return None,
    };
    spelled::spelled(name, &operands)
}
