//! Runs a test set and tells what came of it.

use crate::case::{cases, Case};
use crate::compare::{differences, tell};
use crate::folder::{bad_file, json_files, text};
use crate::house;
use crate::json::parse;
use crate::judge::{self, Judge, JUDGES};
use second::{Ime, State};
use std::collections::BTreeSet;
use std::fmt;
use std::io::Write;
use std::path::Path;

const MEMORY_SIZE: usize = second::MEMORY_SIZE;

/// Runs every file of a folder. Answers whether no case failed.
pub fn run(folder: &Path, house: bool, out: &mut impl Write) -> Result<bool, String> {
    let files = json_files(folder)?;
    say(out, judge::sentence())?;
    if house {
        say(out, house::SENTENCE)?;
    }
    let mut unknown = BTreeSet::new();
    let mut total = Tally::default();
    for file in &files {
        total.add(&run_file(file, house, &mut unknown, out)?);
    }
    if !unknown.is_empty() {
        let keys: Vec<_> = unknown.into_iter().collect();
        say(
            out,
            &format!("not judged, unknown keys: {}", keys.join(", ")),
        )?;
    }
    say(out, &format!("total: {} files, {total}", files.len()))?;
    Ok(total.failed == 0)
}

/// How many cases came out in which way.
#[derive(Default)]
struct Tally {
    cases: u64,
    passed: u64,
    excused: u64,
    failed: u64,
}

impl Tally {
    fn add(&mut self, other: &Tally) {
        self.cases += other.cases;
        self.passed += other.passed;
        self.excused += other.excused;
        self.failed += other.failed;
    }

    fn count(&mut self, outcome: Outcome) {
        self.cases += 1;
        match outcome {
            Outcome::Passed => self.passed += 1,
            Outcome::Excused => self.excused += 1,
            Outcome::Failed => self.failed += 1,
        }
    }
}

impl fmt::Display for Tally {
    fn fmt(&self, out: &mut fmt::Formatter) -> fmt::Result {
        write!(out, "{} cases, {} passed", self.cases, self.passed)?;
        if self.excused != 0 {
            write!(out, ", {} excused", self.excused)?;
        }
        write!(out, ", {} failed", self.failed)
    }
}

/// What came of a case, the worst last.
#[derive(Clone, Copy, PartialEq, Eq, PartialOrd, Ord)]
enum Outcome {
    Passed,
    Excused,
    Failed,
}

fn run_file(
    path: &Path,
    house: bool,
    unknown: &mut BTreeSet<String>,
    out: &mut impl Write,
) -> Result<Tally, String> {
    let text = text(path)?;
    let cases = parse(&text)
        .and_then(|node| cases(&node, unknown))
        .map_err(|fault| bad_file(path, fault.at, &fault.what))?;
    let mut tally = Tally::default();
    let mut lines = Vec::new();
    for case in &cases {
        tally.count(run_case(case, house, &mut lines));
    }
    let name = path.file_name().unwrap_or_default().to_string_lossy();
    say(out, &format!("{}: {tally}", name.escape_debug()))?;
    for line in lines {
        say(out, &line)?;
    }
    Ok(tally)
}

/// Runs a case on every core. Its outcome is the worst of them.
fn run_case(case: &Case, house: bool, lines: &mut Vec<String>) -> Outcome {
    let mut before = vec![0; MEMORY_SIZE];
    case.before.place(&mut before);
    let outcomes = JUDGES
        .iter()
        .map(|judge| judge_case(judge, case, &before, house, lines));
    outcomes.max().unwrap_or(Outcome::Failed)
}

fn judge_case(
    judge: &Judge,
    case: &Case,
    before: &[u8],
    house: bool,
    lines: &mut Vec<String>,
) -> Outcome {
    let state = case.before.state();
    let mut after = before.to_vec();
    let stepped = (judge.step)(state, &mut after);
    let differences = differences(case, &stepped, before, &after);
    if differences.is_empty() {
        return Outcome::Passed;
    }
    let opcode = before[usize::from(state.pc)];
    let (outcome, word) = if house && house::excuses(opcode, &differences) {
        (Outcome::Excused, "excused")
    } else {
        (Outcome::Failed, "failed")
    };
    let name = case.name.escape_debug();
    let what = tell(&differences);
    let note = note(&state, before);
    lines.push(format!("  {word}: {name} on {}: {what}{note}", judge.name));
    outcome
}

/// A set that knows of no interrupts can ask for an instruction where document
/// 01 has a dispatch. That is no excuse, but worth knowing.
fn note(state: &State, before: &[u8]) -> &'static str {
    let pending = before[0xFFFF] & before[0xFF0F] & 0x1F;
    if state.ime == Ime::On && pending != 0 {
        " (ime is 1 and a request is pending: document 01 has a dispatch here)"
    } else {
        ""
    }
}

fn say(out: &mut impl Write, line: &str) -> Result<(), String> {
    writeln!(out, "{line}").map_err(|error| format!("cannot write the answer: {error}"))
}
