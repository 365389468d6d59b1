//! The command line.

use std::ffi::OsString;
use std::path::PathBuf;

const USAGE: &str = "usage: published run FOLDER [--house] | make FOLDER --seed N --cases K";

/// Cases per file that `make` accepts.
const CASES_LIMIT: u64 = 100_000;

/// What the user asks for.
pub enum Request {
    Run {
        folder: PathBuf,
        house: bool,
    },
    Make {
        folder: PathBuf,
        seed: u64,
        cases: u64,
    },
}

pub fn read(arguments: &[OsString]) -> Result<Request, String> {
    let words: Vec<_> = arguments.iter().map(|word| word.to_str()).collect();
    match words[..] {
        [Some("run"), _] => Ok(Request::Run {
            folder: PathBuf::from(&arguments[1]),
            house: false,
        }),
        [Some("run"), _, Some("--house")] => Ok(Request::Run {
            folder: PathBuf::from(&arguments[1]),
            house: true,
        }),
        [Some("make"), _, Some("--seed"), seed, Some("--cases"), cases] => Ok(Request::Make {
            folder: PathBuf::from(&arguments[1]),
            seed: number("--seed", seed, 0, u64::MAX)?,
            cases: number("--cases", cases, 1, CASES_LIMIT)?,
        }),
        _ => Err(USAGE.to_string()),
    }
}

fn number(name: &str, word: Option<&str>, least: u64, most: u64) -> Result<u64, String> {
    word.filter(|word| word.bytes().all(|byte| byte.is_ascii_digit()))
        .and_then(|word| word.parse().ok())
        .filter(|number| (least..=most).contains(number))
        .ok_or_else(|| format!("{name} must be a number from {least} to {most}"))
}
