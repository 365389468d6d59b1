//! What the proved core lists of some bytes: all of it, so many lines, or some addresses.

use std::collections::BTreeSet;
use std::ops::Range;

use trnadulek::{listing, Edition};

use crate::arguments::Given;
use crate::trouble::Trouble;
use crate::words;

/// No instruction has more bytes.
const LONGEST: usize = 3;

/// How many lines are enough to see where one is.
pub const ENOUGH: usize = 20;

/// Which lines are asked for.
pub enum Which {
    All,
    /// So many, from an address on or from where such a listing starts by itself.
    Lines {
        from: Option<u16>,
        count: usize,
    },
    /// Of the instructions that begin in one of these.
    Bytes(Vec<Range<usize>>),
}

/// What is asked for: which lines, and how they are spelled.
pub struct Asked {
    pub which: Which,
    pub edition: Edition,
}

/// Bytes that follow one another, with their addresses.
pub struct Part<'a> {
    bytes: &'a [u8],
    first: u16,
    /// Where lines start if no address is given.
    start: u16,
    /// Whether its first byte comes after its last, as in a whole memory.
    round: bool,
}

impl<'a> Part<'a> {
    pub fn new(bytes: &'a [u8], first: u16) -> Self {
        Part {
            bytes,
            first,
            start: first,
            round: false,
        }
    }

    /// All 65,536 bytes, lines starting at an address.
    pub fn memory(bytes: &'a [u8], start: u16) -> Self {
        Part {
            bytes,
            first: 0,
            start,
            round: true,
        }
    }

    /// The lines, or the words for an address that is not there.
    pub fn text(&self, asked: &Asked) -> Result<String, String> {
        let edition = asked.edition;
        match &asked.which {
            Which::All => Ok(listing(self.bytes, self.first, edition)),
            Which::Lines { from, count } => self.lines(from.unwrap_or(self.start), *count, edition),
            Which::Bytes(ranges) => {
                let begun = ranges.iter().map(|range| self.begun_in(range, edition));
                begun.collect()
            }
        }
    }

    pub fn length(&self) -> usize {
        self.bytes.len()
    }

    pub fn first(&self) -> u16 {
        self.first
    }

    pub fn place(&self) -> String {
        let first = usize::from(self.first);
        words::place(first, first + self.bytes.len())
    }

    fn lines(&self, from: u16, count: usize, edition: Edition) -> Result<String, String> {
        let at = self.index(usize::from(from))?;
        let after: &[u8] = if self.round { self.bytes } else { &[] };
        let bytes = self.bytes[at..].iter().chain(after.iter().cycle());
        let enough: Vec<u8> = bytes.take(count * LONGEST).copied().collect();
        let text = listing(&enough, from, edition);
        Ok(text.split_inclusive('\n').take(count).collect())
    }

    /// The instructions that begin in a range of addresses, each of them whole.
    fn begun_in(&self, range: &Range<usize>, edition: Edition) -> Result<String, String> {
        let (at, last) = (self.index(range.start)?, self.index(range.end - 1)?);
        let enough = self.bytes.len().min(last + LONGEST);
        let text = listing(&self.bytes[at..enough], range.start as u16, edition);
        let mut next = at;
        let begun = text.split_inclusive('\n').take_while(|line| {
            let begins = next;
            next += byte_count(line);
            begins <= last
        });
        Ok(begun.collect())
    }

    /// Where the byte of an address is.
    fn index(&self, address: usize) -> Result<usize, String> {
        let index = address.checked_sub(usize::from(self.first));
        let index = index.filter(|index| *index < self.bytes.len());
        index.ok_or_else(|| format!("there is no ${address:04X}, only {}", self.place()))
    }
}

/// The lines of old bytes and of new ones in their place, of which so many differ. Both go on to where
/// an instruction begins in the old ones and in the new: from there on they are the same.
pub fn before_and_after(
    old: &[u8],
    new: &[u8],
    count: usize,
    first: u16,
    edition: Edition,
) -> (String, String) {
    let (old, new) = (listing(old, first, edition), listing(new, first, edition));
    let old_ends: BTreeSet<usize> = ends(&old).collect();
    let in_step = ends(&new).find(|end| *end >= count && old_ends.contains(end));
    let in_step = in_step.unwrap_or(count);
    (until(&old, count, in_step), until(&new, count, in_step))
}

/// The lines of the bytes to an end, but only so many of them as are enough behind the first bytes.
fn until(text: &str, first_bytes: usize, end: usize) -> String {
    let all = ends(text).take_while(|next| *next <= end).count();
    let most = ends(text).take_while(|next| *next < first_bytes).count() + 1 + ENOUGH;
    let lines = text.split_inclusive('\n').take(all.min(most));
    let more = if all > most { "..\n" } else { "" };
    lines.chain([more]).collect()
}

/// How many bytes the lines of a text are for, to the end of each.
fn ends(text: &str) -> impl Iterator<Item = usize> + '_ {
    text.split_inclusive('\n').scan(0, |end, line| {
        *end += byte_count(line);
        Some(*end)
    })
}

/// The edition by its name, in small letters alone: help and pages show no other way.
pub fn asked_edition(given: &Given) -> Result<Edition, Trouble> {
    match given.value("--edition") {
        None => Ok(Edition::default()),
        Some(value) if value == "old" => Ok(Edition::Old),
        Some(value) if value == "new" => Ok(Edition::New),
        Some(value) => Err(Trouble::wrong("--edition", value, "old or new")),
    }
}

/// How many bytes a line is for: its second word has two digits for each.
fn byte_count(line: &str) -> usize {
    line.split(' ').nth(1).map_or(0, str::len) / 2
}
