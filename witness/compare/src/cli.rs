//! The command line.

use crate::comparisons::{self, Comparison};
use crate::input::{self, Input};
use std::path::PathBuf;

pub const USAGE: &str = "\
usage: compare [--seed N] [NAME...]   run all comparisons, or those named
       compare list                   name the comparisons
       compare again INPUT...         judge one input, as a failure prints it
       compare workloads IMAGE...     run saved images in slices by every judge
       compare inputs FOLDER          write inputs for the program, with answers";

const DEFAULT_SEED: u64 = 1;

pub enum Command {
    Run { seed: u64, chosen: Vec<Comparison> },
    List,
    Again(Input),
    Workloads(Vec<PathBuf>),
    Inputs(PathBuf),
    Help,
}

/// The command, or one line that says what is wrong.
pub fn parse(arguments: &[String]) -> Result<Command, String> {
    let (first, rest) = match arguments.split_first() {
        Some(words) => words,
        None => return run(arguments),
    };
    match first.as_str() {
        "list" => alone(rest, Command::List),
        "help" | "--help" => alone(rest, Command::Help),
        "again" => input::parse(rest).map(Command::Again),
        "inputs" => inputs(rest),
        "workloads" => workloads(rest),
        _ => run(arguments),
    }
}

fn alone(rest: &[String], command: Command) -> Result<Command, String> {
    match rest.first() {
        None => Ok(command),
        Some(word) => Err(format!("{word} is one word too many")),
    }
}

fn inputs(rest: &[String]) -> Result<Command, String> {
    match rest {
        [folder] if !folder.is_empty() => Ok(Command::Inputs(PathBuf::from(folder))),
        _ => Err("inputs: exactly one folder is to be named".to_string()),
    }
}

fn workloads(rest: &[String]) -> Result<Command, String> {
    match rest {
        [] => Err("workloads: an image is to be named".to_string()),
        _ => Ok(Command::Workloads(rest.iter().map(PathBuf::from).collect())),
    }
}

fn run(arguments: &[String]) -> Result<Command, String> {
    let mut seed = DEFAULT_SEED;
    let mut chosen = Vec::new();
    let mut words = arguments.iter();
    while let Some(word) = words.next() {
        if word == "--seed" {
            let number = words.next().and_then(|text| text.parse().ok());
            seed = number.ok_or("--seed wants a number from 0 to 18446744073709551615")?;
        } else {
            let found = comparisons::find(word);
            chosen.push(found.ok_or_else(|| format!("no comparison is called {word}"))?);
        }
    }
    if chosen.is_empty() {
        chosen = comparisons::all().into();
    }
    Ok(Command::Run { seed, chosen })
}
