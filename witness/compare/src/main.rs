//! Holds the second program, mGBA's core, the benchmark's plain core and the proved
//! core against each other, and against what document 01 fixes outright.
//!
//! - `comparisons`: what is compared, one function for each name
//! - `bench`: one step by every judge, on memories that stay in place
//! - `check`: every other kind of input by every judge
//! - `excuse`: the one table of what mGBA may answer otherwise
//! - `paper`: what document 01 fixes, taken from no core
//! - `plain`: the benchmark's plain core
//! - `proved`: the proved core's C interface, behind the feature `proved`
//! - `workloads`: saved images run by every judge
//! - `shrink`, `input`: from a failure to a small input and its command line

mod answer;
mod bench;
mod check;
mod cli;
mod comparisons;
mod context;
mod draw;
mod excuse;
mod input;
mod inputs;
mod paper;
mod plain;
mod proved;
mod report;
mod shrink;
mod workloads;

use cli::Command;
use std::process::ExitCode;

const FAILED: u8 = 1;
const BAD_USAGE: u8 = 2;

fn main() -> ExitCode {
    let arguments: Vec<String> = std::env::args().skip(1).collect();
    match cli::parse(&arguments) {
        Ok(command) => obey(command),
        Err(what) => complain(&format!("{what} (compare help shows the usage)")),
    }
}

fn obey(command: Command) -> ExitCode {
    match command {
        Command::Run { seed, chosen } => verdict(report::run(seed, &chosen)),
        Command::Again(input) => verdict(report::again(&input)),
        Command::Workloads(files) => match workloads::run(&files) {
            Ok(passed) => verdict(passed),
            Err(what) => complain(&what),
        },
        Command::Inputs(folder) => match inputs::write(&folder) {
            Ok(count) => said(&format!("{count} inputs and answers written")),
            Err(what) => complain(&what),
        },
        Command::List => {
            for comparison in comparisons::all() {
                println!("{:<13} {}", comparison.name, comparison.about);
            }
            ExitCode::SUCCESS
        }
        Command::Help => said(cli::USAGE),
    }
}

fn verdict(passed: bool) -> ExitCode {
    match passed {
        true => ExitCode::SUCCESS,
        false => ExitCode::from(FAILED),
    }
}

fn said(text: &str) -> ExitCode {
    println!("{text}");
    ExitCode::SUCCESS
}

fn complain(what: &str) -> ExitCode {
    eprintln!("compare: {what}");
    ExitCode::from(BAD_USAGE)
}
