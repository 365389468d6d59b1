//! Why a command did not do its work: always one line.

use std::fmt;

pub enum Failure {
    /// Bad usage, or a file that cannot be read or made.
    Trouble(String),
    /// The core refused, with this number.
    Refusal(u8),
    /// The core refused, with this number, for the line of that one.
    InLine(u8, usize),
}

impl Failure {
    /// The status that the process ends with.
    pub fn status(&self) -> u8 {
        match self {
            Failure::Refusal(_) | Failure::InLine(..) => 1,
            Failure::Trouble(_) => 2,
        }
    }
}

impl fmt::Display for Failure {
    fn fmt(&self, out: &mut fmt::Formatter) -> fmt::Result {
        match self {
            Failure::Trouble(text) => write!(out, "{text}"),
            Failure::Refusal(code) => {
                write!(out, "refused with {code}: {}", second::sentence(*code))
            }
            Failure::InLine(code, line) => {
                let sentence = second::sentence(*code);
                write!(out, "line {line} is refused with {code}: {sentence}")
            }
        }
    }
}

pub fn usage(text: &str) -> Failure {
    Failure::Trouble(text.to_string())
}

/// Turns any number but 0 into a failure.
pub fn refused(code: u8) -> Result<(), Failure> {
    match code {
        0 => Ok(()),
        _ => Err(Failure::Refusal(code)),
    }
}
