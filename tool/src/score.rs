//! Packed decimal numbers: two digits a byte, least byte first.

use std::ffi::OsString;
use std::ops::Range;

use crate::arguments::Given;
use crate::trouble::Trouble;
use crate::{numbers, words};

/// Where a score lies.
pub struct Score(Range<usize>);

impl Score {
    /// Every `--score ADDRESS LENGTH` that was given.
    pub fn all(given: &Given) -> Result<Vec<Self>, Trouble> {
        given.all("--score").map(Score::from_values).collect()
    }

    pub fn from_values(values: &[OsString]) -> Result<Self, Trouble> {
        numbers::field("--score", &values[0], &values[1]).map(Score)
    }

    pub fn place(&self) -> String {
        format!("score {}", words::place(self.0.start, self.0.end))
    }

    /// The number, or the bytes that hold no decimal digits.
    pub fn value(&self, memory: &[u8]) -> String {
        let bytes = self.0.clone().map(|at| (at, memory[at]));
        let odd: Vec<String> = bytes
            .filter(|(_, byte)| !is_decimal(*byte))
            .map(|(at, byte)| format!("${at:04X} holds {byte:02X}"))
            .collect();
        if odd.is_empty() {
            return number(&memory[self.0.clone()]);
        }
        format!("no number, {}", odd.join(", "))
    }
}

fn is_decimal(byte: u8) -> bool {
    byte >> 4 <= 9 && byte & 0x0F <= 9
}

/// The digits without leading zeros.
fn number(bytes: &[u8]) -> String {
    let most_first = bytes.iter().rev();
    let digits: String = most_first.map(|byte| format!("{byte:02X}")).collect();
    match digits.trim_start_matches('0') {
        "" => "0".to_string(),
        digits => digits.to_string(),
    }
}
