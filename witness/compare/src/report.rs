//! Runs comparisons one after the other and prints a line for each.

use crate::bench::{Bench, Judged};
use crate::check::check;
use crate::comparisons::Comparison;
use crate::context::{Context, Failure, Outcome, Tally};
use crate::excuse::{Uses, TABLE};
use crate::input::Input;
use crate::proved;
use crate::shrink::smallest;
use std::time::Instant;

/// Runs them all; true if none failed.
pub fn run(seed: u64, chosen: &[Comparison]) -> bool {
    println!("seed {seed}");
    print_heading();
    let mut sum = Tally::default();
    let mut uses = Uses::default();
    let mut failed = 0;
    for comparison in chosen {
        let mut context = Context::new(seed, comparison.name);
        let passed = run_one(comparison, &mut context);
        failed += usize::from(!passed);
        sum.add(&context.tally);
        for (total, count) in uses.iter_mut().zip(context.bench.excuses) {
            *total += count;
        }
    }
    print_excuses(&uses);
    print_totals(chosen.len(), &sum, failed);
    failed == 0
}

pub fn print_heading() {
    let proved = match proved::PRESENT {
        true => "linked",
        false => "not linked",
    };
    println!(
        "judges: the second program; mGBA's core; the benchmark's plain core; the proved core \
         ({proved});"
    );
    println!(
        "paper, which is what documents 01 and 02 fix outright. The counts are inputs that each judged."
    );
    print_line(
        "comparison",
        ["inputs", "second", "mgba", "plain", "proved", "paper"].map(String::from),
        "",
    );
}

fn print_line(name: &str, columns: [String; 6], verdict: &str) {
    let columns = columns.map(|text| format!("{text:>9}")).join(" ");
    println!("{}", format!("{name:<13} {columns}  {verdict}").trim_end());
}

fn columns(tally: &Tally) -> [String; 6] {
    let Tally {
        inputs,
        second,
        mgba,
        plain,
        proved,
        paper,
    } = tally;
    [inputs, second, mgba, plain, proved, paper].map(u64::to_string)
}

fn run_one(comparison: &Comparison, context: &mut Context) -> bool {
    let start = Instant::now();
    let outcome = (comparison.run)(context).and_then(|()| someone_judged(comparison, context));
    print_outcome(comparison.name, context, start, outcome)
}

/// A line for what was compared since the start, and what failed; true if nothing did.
pub fn print_outcome(name: &str, context: &mut Context, start: Instant, outcome: Outcome) -> bool {
    let seconds = start.elapsed().as_secs_f64();
    let verdict = if outcome.is_ok() { "ok" } else { "FAILED" };
    let verdict = format!("{verdict}  {seconds:.1} s");
    print_line(name, columns(&context.tally), &verdict);
    for note in &context.notes {
        println!("  {note}");
    }
    match outcome {
        Ok(()) => true,
        Err(failure) => {
            print_failure(failure, &mut context.bench);
            false
        }
    }
}

/// A comparison in which a judge that could speak was never asked compared nothing.
fn someone_judged(comparison: &Comparison, context: &Context) -> Result<(), Failure> {
    let tally = &context.tally;
    let silent = if tally.inputs == 0 || tally.second == 0 {
        "it compared nothing"
    } else if comparison.peers.mgba() && tally.mgba == 0 {
        "mGBA judged nothing"
    } else if comparison.peers.plain() && tally.plain == 0 {
        "the plain core judged nothing"
    } else if proved::PRESENT && tally.proved == 0 {
        "the proved core judged nothing"
    } else if tally.mgba + tally.plain + tally.proved + tally.paper == 0 {
        "the second program was held against nothing"
    } else {
        return Ok(());
    };
    Err(Failure::of_harness(silent))
}

fn print_failure(failure: Failure, bench: &mut Bench) {
    let input = match failure.input {
        Some(input) => input,
        None => return println!("  {}", failure.what),
    };
    let input = smallest(input, &mut |input| check(bench, input).is_err());
    let what = check(bench, &input).err().unwrap_or(failure.what);
    println!("  {what}");
    println!("  smallest input found and the command that runs it again:");
    println!("  compare again {input}");
}

fn print_excuses(uses: &Uses) {
    println!("excused: the places where mGBA gives the one other answer that is listed for it");
    for (excuse, count) in TABLE.iter().zip(uses) {
        let used = match count {
            0 => "NEVER NEEDED in the above".to_string(),
            _ => format!("{count} times"),
        };
        println!("  {}, {used}: {}", excuse.name, excuse.reason);
    }
}

fn print_totals(comparisons: usize, sum: &Tally, failed: usize) {
    let Tally {
        inputs,
        second,
        mgba,
        plain,
        proved,
        paper,
    } = sum;
    println!(
        "total: {comparisons} comparisons, {inputs} inputs (second {second}, mgba {mgba}, \
         plain {plain}, proved {proved}, paper {paper}), {failed} failed"
    );
}

fn names(judged: &Judged) -> String {
    let judges = [
        (judged.second, "the second program"),
        (judged.mgba, "mGBA"),
        (judged.plain, "the plain core"),
        (judged.proved, "the proved core"),
        (judged.paper, "the documents' own words"),
    ];
    let names = judges.into_iter().filter(|judge| judge.0);
    names.map(|judge| judge.1).collect::<Vec<_>>().join(", ")
}

/// One input once more; true if the judges agree on it.
pub fn again(input: &Input) -> bool {
    match check(&mut Bench::new(), input) {
        Ok(judged) if judged == Judged::default() => {
            println!("no judge can say anything about this input");
            false
        }
        Ok(judged) => {
            println!("agreed by {}", names(&judged));
            true
        }
        Err(what) => {
            println!("{what}");
            false
        }
    }
}

#[cfg(test)]
mod tests {
    use super::*;
    use crate::comparisons::Peers;
    use crate::input::Kind;
    use second::State;

    fn passes(peers: Peers, run: fn(&mut Context) -> Outcome) -> bool {
        let comparison = Comparison {
            name: "trial",
            about: "",
            peers,
            run,
        };
        run_one(&comparison, &mut Context::new(1, "trial"))
    }

    #[test]
    fn to_compare_nothing_fails() {
        assert!(!passes(Peers::Neither, |_| Ok(())));
    }

    #[test]
    fn a_silent_judge_fails() {
        let stopped = |context: &mut Context| {
            let mode = second::Mode::Stopped;
            context.lone_step(State {
                mode,
                ..State::default()
            })
        };
        assert!(passes(Peers::Plain, stopped));
        assert!(!passes(Peers::Both, stopped));
        let row = |context: &mut Context| {
            let row = Input::new(Kind::Row, State::default(), 0, Vec::new());
            context.check(row).map(|_| ())
        };
        assert!(passes(Peers::Mgba, row));
        assert!(!passes(Peers::Both, row));
    }

    #[test]
    fn a_difference_fails() {
        assert!(!passes(Peers::Both, |context| {
            context.lone_step(State::default())?;
            let input = Some(Input::step(State::default(), vec![0; 65_536]));
            let what = "a difference".to_string();
            Err(Failure { what, input })
        }));
    }
}
