//! The listing of M-101: bytes as text, a line for each instruction, in either of
//! M-102's two spellings.

mod spellings;

use crate::refusal;
use spellings::{OLD, PREFIXED, UNPREFIXED};

/// Lists a part that begins at an address, in the edition of this number: the code,
/// and how much was written to the front of `out`. Without such an edition, or room
/// for all of it, nothing is written.
pub fn list(part: &[u8], first: u16, edition: u32, out: &mut [u8]) -> (u8, usize) {
    let text = match listing(part, first, edition) {
        Ok(text) => text,
        Err(code) => return (code, 0),
    };
    match out.get_mut(..text.len()) {
        Some(room) => {
            room.copy_from_slice(text.as_bytes());
            (refusal::DONE, text.len())
        }
        None => (refusal::ROOM, 0),
    }
}

/// The whole text of a part that begins at an address, or the code of a number that
/// is no edition's.
pub fn listing(part: &[u8], first: u16, edition: u32) -> Result<String, u8> {
    let text_of = match edition {
        1 => old_text,
        2 => new_text,
        _ => return Err(refusal::EDITION),
    };
    Ok(lines(part, first, text_of))
}

/// How an edition spells an opcode without a prefix.
type TextOf = fn(u8) -> &'static str;

fn new_text(opcode: u8) -> &'static str {
    UNPREFIXED[usize::from(opcode)]
}

fn old_text(opcode: u8) -> &'static str {
    let old = OLD.iter().find(|(spelled, _)| *spelled == opcode);
    old.map_or_else(|| new_text(opcode), |(_, text)| text)
}

fn lines(part: &[u8], first: u16, text_of: TextOf) -> String {
    let mut text = String::new();
    let mut address = first;
    let mut rest = part;
    while !rest.is_empty() {
        let read = instruction(rest, address, text_of);
        let (taken, spelling) = read.unwrap_or_else(|| data(rest[0]));
        let (bytes, after) = rest.split_at(taken);
        text += &format!("{address:04X} {} {spelling}\n", digits(bytes));
        address = address.wrapping_add(taken as u16);
        rest = after;
    }
    text
}

/// The bytes of the first instruction and its spelling. Nothing where the bytes
/// end before it does, or where none begins with them.
fn instruction(bytes: &[u8], address: u16, text_of: TextOf) -> Option<(usize, String)> {
    match *bytes {
        [0x10, 0x00, ..] => Some((2, "STOP".to_string())),
        [0xCB, second, ..] => Some((2, PREFIXED[usize::from(second)].to_string())),
        [opcode, ref after @ ..] => spelled(text_of(opcode), after, address),
        [] => None,
    }
}

/// The spelling with its operand, which is read from the bytes after the opcode,
/// in the place of the word in lower case; and the bytes that both take.
fn spelled(spelling: &str, after: &[u8], address: u16) -> Option<(usize, String)> {
    if spelling.is_empty() {
        return None;
    }
    let word = spelling.trim_matches(|letter: char| !letter.is_ascii_lowercase());
    if word.is_empty() {
        return Some((1, spelling.to_string()));
    }
    let low = *after.first()?;
    let (taken, operand) = match word {
        "word" => (3, format!("${:02X}{low:02X}", after.get(1)?)),
        "byte" => (2, format!("${low:02X}")),
        "port" => (2, format!("$FF{low:02X}")),
        "offset" => (2, signed(low as i8)),
        "target" => (2, format!("${:04X}", target(address, low as i8))),
        _ => unreachable!("{spelling}"),
    };
    Some((taken, spelling.replace(word, &operand)))
}

/// Where JR goes: so far from the address after its two bytes.
fn target(address: u16, offset: i8) -> u16 {
    address.wrapping_add(2).wrapping_add(offset as u16)
}

fn signed(offset: i8) -> String {
    let sign = if offset < 0 { "-" } else { "" };
    format!("{sign}${:02X}", offset.unsigned_abs())
}

fn data(byte: u8) -> (usize, String) {
    (1, format!("DB ${byte:02X}"))
}

fn digits(bytes: &[u8]) -> String {
    bytes.iter().map(|byte| format!("{byte:02X}")).collect()
}
