use std::path::Path;

use super::Command;
use crate::arguments::Given;
use crate::differences::{self, Shown};
use crate::report::{Report, Status};
use crate::saved::Saved;
use crate::score::Score;
use crate::trouble::Trouble;
use crate::{numbers, slices, words};

pub const COMMAND: Command = Command {
    name: "judge",
    form: "START CYCLES CLAIM.. [--score ADDRESS LENGTH].. [--all]",
    about: "\
runs START on the proved core and says of each claimed image whether it is right, or else
where it differs, the right value before the claimed one
--score  the numbers too, as in show
--all    every range of bytes, and whole",
    options: &["--score", "--all"],
    writes: false,
    carry_out,
};

fn carry_out(given: Given) -> Result<Report, Trouble> {
    let (start, cycles, claims) = match given.plain.as_slice() {
        [start, cycles, claims @ ..] if !claims.is_empty() => (start, cycles, claims),
        _ => return Err(COMMAND.wrong_form()),
    };
    let (cycles, scores) = (numbers::cycles(cycles)?, Score::all(&given)?);
    let mut right = Saved::image(Path::new(start))?;
    let total = slices::run(&mut right, cycles)?;
    let mut text = format!("{}: ran {}\n", right.input.name(), total.words());
    if let Some(ending) = total.ending(&right) {
        text += &format!("{ending}\n");
    }
    let mut verdict = Verdict {
        right,
        scores,
        shown: Shown::asked(&given),
        report: Report::answer(text, Status::Done),
    };
    let mut agreeing = 0;
    for claim in claims {
        agreeing += usize::from(verdict.on(Path::new(claim)));
    }
    let mut report = verdict.report;
    report.text += &format!("right: {agreeing} of {}\n", claims.len());
    Ok(report)
}

struct Verdict {
    right: Saved,
    scores: Vec<Score>,
    shown: Shown,
    report: Report,
}

impl Verdict {
    /// Judges a claim; whether it is right.
    fn on(&mut self, claim: &Path) -> bool {
        let claimed = match Saved::image(claim) {
            Ok(claimed) => claimed,
            Err(trouble) => {
                self.report.complaints.push(trouble.line());
                self.report.status = Status::Trouble;
                return false;
            }
        };
        let differences = differences::between(&self.right, &claimed, self.shown);
        let right = differences.is_empty();
        let verdict = match right {
            true => "right",
            false => "not right, what is right -> what it claims",
        };
        self.say(&format!("{}: {verdict}", words::name(claim)), &differences);
        let scores = self.scores.iter().map(|score| self.score(score, &claimed));
        self.report.text += &scores.collect::<String>();
        if !right {
            self.report.status = self.report.status.max(Status::No);
        }
        right
    }

    fn say(&mut self, verdict: &str, below: &str) {
        self.report.text += &format!("{verdict}\n");
        for line in below.lines() {
            self.report.text += &format!("  {line}\n");
        }
    }

    fn score(&self, score: &Score, claimed: &Saved) -> String {
        let place = score.place();
        let (ours, theirs) = (
            score.value(self.right.memory()),
            score.value(claimed.memory()),
        );
        match ours == theirs {
            true => format!("  {place}: {ours}\n"),
            false => format!("  {place}: {ours} -> {theirs}\n"),
        }
    }
}
