//! M-102's own law, of each lister by itself: at one address a line's spelling stands for
//! its bytes alone, over both editions, and the editions part at eight opcodes and
//! nowhere else.

use super::listing::EDITIONS;
use crate::answer::hex;
use crate::bench::Judged;
use crate::context::{Context, Failure, Outcome};
use crate::paper::{DONE, NEW, OLD};
use crate::proved;
use std::collections::{HashMap, HashSet};

const ADDRESS: u16 = 0x0150;

/// Far more than a part of three bytes takes.
const ROOM: usize = 100;

/// High bytes of an operand of two bytes; its low byte takes every value.
const HIGH_BYTES: [u8; 6] = [0x00, 0x01, 0x7F, 0x80, 0xFE, 0xFF];

/// The opcodes that documents 002 to 004 have as LDIO, LDI and LDD.
const EIGHT: [u8; 8] = [0x22, 0x2A, 0x32, 0x3A, 0xE0, 0xE2, 0xF0, 0xF2];

/// How many strings of bytes the eight begin: two of them have an operand byte.
const STRINGS_OF_EIGHT: usize = 6 + 2 * 256;

pub fn spellings(context: &mut Context) -> Outcome {
    let mut second = Lines::new("the second program", |part, edition, out| {
        Some(second::list(part, ADDRESS, edition, out))
    });
    let mut proved = Lines::new("the proved core", |part, edition, out| {
        proved::list(part, ADDRESS, edition, out)
    });
    let judged = Judged {
        second: true,
        proved: proved::PRESENT,
        paper: true,
        ..Judged::default()
    };
    for part in parts() {
        second.take(&part).map_err(of_law)?;
        proved.take(&part).map_err(of_law)?;
        EDITIONS.iter().for_each(|_| context.tally.count(judged));
    }
    context.notes.push(second.counted().map_err(of_law)?);
    if proved::PRESENT {
        context.notes.push(proved.counted().map_err(of_law)?);
    }
    Ok(())
}

/// The law is about two lines, so that no single input breaks it.
fn of_law(what: String) -> Failure {
    Failure { what, input: None }
}

/// Every byte, every pair of bytes, and every opcode of three bytes with operands whose
/// high byte is at the edges.
fn parts() -> Vec<Vec<u8>> {
    let mut parts = Vec::new();
    for first in 0..=255 {
        parts.push(vec![first]);
        for low in 0..=255 {
            parts.push(vec![first, low]);
            if second::length(first.into()) == 3 {
                parts.extend(HIGH_BYTES.map(|high| vec![first, low, high]));
            }
        }
    }
    parts
}

type List = fn(&[u8], u32, &mut [u8]) -> Option<(u8, usize)>;

/// What a lister makes of the parts that are one line.
struct Lines {
    who: &'static str,
    list: List,
    /// The bytes that each spelling stands for.
    bytes_of: HashMap<String, Vec<u8>>,
    strings: HashSet<Vec<u8>>,
}

impl Lines {
    fn new(who: &'static str, list: List) -> Self {
        Lines {
            who,
            list,
            bytes_of: HashMap::new(),
            strings: HashSet::new(),
        }
    }

    /// Has a part listed in both editions, if the lister is there.
    fn take(&mut self, part: &[u8]) -> Result<(), String> {
        let (old, new) = match (self.text(part, OLD)?, self.text(part, NEW)?) {
            (Some(old), Some(new)) => (old, new),
            _ => return Ok(()),
        };
        if new.lines().count() != 1 {
            return Ok(());
        }
        let whole = usize::from(second::length(part[0].into())) == part.len();
        if (old != new) != (whole && EIGHT.contains(&part[0])) {
            let who = self.who;
            return Err(format!(
                "{who}: {old:?} in the old edition, {new:?} in the new"
            ));
        }
        self.strings.insert(part.to_vec());
        self.keep(&old, part)?;
        self.keep(&new, part)
    }

    fn text(&self, part: &[u8], edition: u32) -> Result<Option<String>, String> {
        let mut out = [0; ROOM];
        match (self.list)(part, edition, &mut out) {
            None => Ok(None),
            Some((DONE, length)) if length <= ROOM => {
                Ok(Some(String::from_utf8_lossy(&out[..length]).into()))
            }
            Some((code, length)) => {
                let (who, part) = (self.who, hex(part));
                Err(format!("{who}: {part} gives code {code}, length {length}"))
            }
        }
    }

    /// Keeps what a line's spelling stands for; it must not have stood for other bytes.
    fn keep(&mut self, line: &str, part: &[u8]) -> Result<(), String> {
        let spelling = line.splitn(3, ' ').nth(2).unwrap_or_default();
        let before = self.bytes_of.insert(spelling.to_string(), part.to_vec());
        match before {
            Some(other) if other != part => Err(format!(
                "{}: {} and {} are both spelled {spelling:?}",
                self.who,
                hex(&other),
                hex(part)
            )),
            _ => Ok(()),
        }
    }

    /// How many spellings there were: one for each string of bytes, and two for those
    /// that the eight begin.
    fn counted(&self) -> Result<String, String> {
        let (who, spellings, strings) = (self.who, self.bytes_of.len(), self.strings.len());
        let counted = format!("{who}: {spellings} spellings of {strings} strings of bytes");
        match spellings == strings + STRINGS_OF_EIGHT {
            true => Ok(format!("{counted}, and each stands for one string")),
            false => Err(format!(
                "{counted}, and {STRINGS_OF_EIGHT} of these have two"
            )),
        }
    }
}

#[cfg(test)]
mod tests {
    use super::*;

    /// The second program's line, in which one text stands for another.
    fn spelled(
        part: &[u8],
        edition: u32,
        out: &mut [u8],
        from: &str,
        to: &str,
    ) -> Option<(u8, usize)> {
        let text = second::listing(part, ADDRESS, edition).expect("an edition");
        let text = text.replace(from, to);
        out[..text.len()].copy_from_slice(text.as_bytes());
        Some((DONE, text.len()))
    }

    /// What a lister makes of some of the parts, 5 and -5 among their operands.
    fn taken(list: List) -> Result<Lines, String> {
        let mut lines = Lines::new("it", list);
        let some = |part: &Vec<u8>| part.get(1).map_or(true, |low| [0, 5, 0xFB].contains(low));
        for part in parts().into_iter().filter(some) {
            lines.take(&part)?;
        }
        Ok(lines)
    }

    #[test]
    fn a_spelling_of_two_strings_is_seen() {
        for list in [
            (|part, edition, out| spelled(part, edition, out, "LDI ", "LDD ")) as List,
            |part, edition, out| spelled(part, edition, out, "LDI ", "LD "),
            |part, edition, out| spelled(part, edition, out, "JP HL", "JP $0105"),
            |part, edition, out| spelled(part, edition, out, "-$", "$"),
            |part, edition, out| spelled(part, edition, out, "DB $10", "STOP"),
        ] {
            let what = taken(list).err().expect("two of one spelling");
            assert!(what.contains("both spelled"), "{what}");
        }
    }

    #[test]
    fn editions_that_part_elsewhere_are_seen() {
        for list in [
            (|part, edition, out| spelled(part, edition, out, "LDIO ", "LDH ")) as List,
            |part, edition, out| spelled(part, NEW.min(edition + 1), out, "", ""),
            |part, edition, out| match edition {
                OLD => spelled(part, OLD, out, "JP HL", "JP [HL]"),
                _ => spelled(part, edition, out, "", ""),
            },
        ] {
            let what = taken(list).err().expect("editions that differ");
            assert!(what.contains("in the old edition"), "{what}");
        }
    }

    /// Of the eight only some operands were there.
    #[test]
    fn each_of_the_eight_must_have_been_there() {
        let lines = taken(|part, edition, out| spelled(part, edition, out, "", ""));
        let what = lines.and_then(|lines| lines.counted()).err();
        let what = what.expect("too few spellings");
        assert!(what.contains(" spellings of "), "{what}");
    }
}
