//! What differs between two saved machines, the first one's values before the second one's.

use trnadulek::Cpu;

use crate::arguments::Given;
use crate::saved::Saved;
use crate::words;

/// How much of the differences is shown.
#[derive(Clone, Copy)]
pub struct Shown {
    ranges: usize,
    bytes: usize,
}

impl Shown {
    const ENOUGH: Shown = Shown {
        ranges: 40,
        bytes: 8,
    };
    const ALL: Shown = Shown {
        ranges: usize::MAX,
        bytes: usize::MAX,
    };

    /// All for `--all`.
    pub fn asked(given: &Given) -> Self {
        match given.has("--all") {
            true => Shown::ALL,
            false => Shown::ENOUGH,
        }
    }
}

/// What differs between two images, or two heads: nothing where they are the same.
pub fn between(a: &Saved, b: &Saved, shown: Shown) -> String {
    registers(a.cpu, b.cpu) + &memories(a.memory(), b.memory(), shown)
}

/// A line for each register that differs.
fn registers(a: Cpu, b: Cpu) -> String {
    let both = words::registers(a).into_iter().zip(words::registers(b));
    both.filter(|((_, old), (_, new))| old != new)
        .map(|((name, old), (_, new))| words::row(name, &format!("{old} -> {new}")))
        .collect()
}

/// A line for each run of bytes that differ, up to a limit, and then a count.
fn memories(a: &[u8], b: &[u8], shown: Shown) -> String {
    let ranges = ranges(a, b);
    if ranges.is_empty() {
        return String::new();
    }
    let lines = ranges.iter().take(shown.ranges).map(|&(from, to)| {
        let (old, new) = (
            some(&a[from..to], shown.bytes),
            some(&b[from..to], shown.bytes),
        );
        format!("{}  {old} -> {new}\n", words::place(from, to))
    });
    let mut text: String = lines.collect();
    if ranges.len() > shown.ranges {
        let more = words::count((ranges.len() - shown.ranges) as u64, "more range");
        text += &format!("and {more}; --all shows them\n");
    }
    let bytes = ranges.iter().map(|(from, to)| (to - from) as u64).sum();
    text + &format!(
        "memory: {} in {} differ\n",
        words::count(bytes, "byte"),
        words::count(ranges.len() as u64, "range")
    )
}

/// The first few of many bytes.
fn some(bytes: &[u8], most: usize) -> String {
    match bytes.get(..most) {
        Some(first) if first.len() < bytes.len() => words::bytes(first) + " ..",
        _ => words::bytes(bytes),
    }
}

/// Where each run of differing bytes begins, and where it has ended.
fn ranges(a: &[u8], b: &[u8]) -> Vec<(usize, usize)> {
    let mut ranges: Vec<(usize, usize)> = Vec::new();
    for at in (0..a.len().min(b.len())).filter(|&at| a[at] != b[at]) {
        match ranges.last_mut() {
            Some((_, to)) if *to == at => *to += 1,
            _ => ranges.push((at, at + 1)),
        }
    }
    ranges
}
