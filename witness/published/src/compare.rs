//! What a core made of a case, against what the case says.

use crate::case::Case;
use second::{Ime, State, Stepped};
use std::fmt;

/// Differences that are told of one case.
const TOLD: usize = 4;

/// One place where a core and a case differ.
#[derive(Debug, PartialEq)]
pub struct Difference {
    pub place: Place,
    pub found: u64,
    pub expected: u64,
}

#[derive(Clone, Copy, Debug, PartialEq)]
pub enum Place {
    /// The refusal number.
    Code,
    Cycles,
    /// A register, by its key in the file.
    Register(&'static str),
    Ram(u16),
}

impl fmt::Display for Difference {
    fn fmt(&self, out: &mut fmt::Formatter) -> fmt::Result {
        match self.place {
            Place::Code => write!(out, "code")?,
            Place::Cycles => write!(out, "cycles")?,
            Place::Register(key) => write!(out, "{key}")?,
            Place::Ram(address) => write!(out, "ram {address}")?,
        }
        write!(out, " {}, expected {}", self.found, self.expected)
    }
}

/// The first few differences on one line.
pub fn tell(differences: &[Difference]) -> String {
    let told: Vec<_> = differences
        .iter()
        .take(TOLD)
        .map(|d| d.to_string())
        .collect();
    let line = told.join("; ");
    match differences.len().saturating_sub(TOLD) {
        0 => line,
        more => format!("{line}; and {more} more"),
    }
}

/// All differences between the answer of a core and the case. The memory must
/// be the one before, but for the bytes that the case lists after it.
pub fn differences(case: &Case, stepped: &Stepped, before: &[u8], after: &[u8]) -> Vec<Difference> {
    let mut differences = Vec::new();
    let mut compare = |place, found, expected| {
        if found != expected {
            differences.push(Difference {
                place,
                found,
                expected,
            });
        }
    };
    compare(Place::Code, stepped.code.into(), 0);
    compare(Place::Cycles, stepped.cycles.into(), case.cycles);
    let found = registers(&stepped.state);
    let expected = registers(&case.after.registers);
    for ((key, found), (_, expected)) in found.into_iter().zip(expected) {
        compare(Place::Register(key), found, expected);
    }
    let (ime, ei) = switches(stepped.state.ime);
    compare(Place::Register("ime"), ime, case.after.ime.into());
    if let Some(expected) = case.after.ei {
        compare(Place::Register("ei"), ei, expected.into());
    }
    compare_memory(case, before, after, &mut compare);
    differences
}

fn registers(state: &State) -> [(&'static str, u64); 10] {
    [
        ("a", state.a.into()),
        ("f", state.f.into()),
        ("b", state.b.into()),
        ("c", state.c.into()),
        ("d", state.d.into()),
        ("e", state.e.into()),
        ("h", state.h.into()),
        ("l", state.l.into()),
        ("sp", state.sp.into()),
        ("pc", state.pc.into()),
    ]
}

/// `ime` and `ei` of a switch: Arming is not on yet.
fn switches(ime: Ime) -> (u64, u64) {
    match ime {
        Ime::Off => (0, 0),
        Ime::Arming => (0, 1),
        Ime::On => (1, 0),
    }
}

fn compare_memory(
    case: &Case,
    before: &[u8],
    after: &[u8],
    compare: &mut impl FnMut(Place, u64, u64),
) {
    let mut expected = before.to_vec();
    case.after.place(&mut expected);
    if expected == after {
        return;
    }
    for (address, (found, expected)) in (0..).zip(after.iter().zip(&expected)) {
        compare(Place::Ram(address), (*found).into(), (*expected).into());
    }
}
