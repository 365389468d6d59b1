//! The commands, one in each file.

mod assemble;
mod check;
mod compare;
mod export;
mod import;
mod judge;
mod list;
mod make;
mod patch;
mod run;
mod show;
mod wake;

use std::convert::TryInto;
use std::ffi::OsString;
use std::path::PathBuf;

use crate::arguments::{self, Given};
use crate::report::{Report, Status};
use crate::trouble::Trouble;
use crate::words;

pub struct Command {
    name: &'static str,
    /// What follows the name.
    form: &'static str,
    /// What it does, in lines for `--help`.
    about: &'static str,
    options: &'static [&'static str],
    /// Whether it writes a file.
    writes: bool,
    carry_out: fn(Given) -> Result<Report, Trouble>,
}

const ALL: [Command; 12] = [
    make::COMMAND,
    show::COMMAND,
    check::COMMAND,
    run::COMMAND,
    compare::COMMAND,
    judge::COMMAND,
    export::COMMAND,
    import::COMMAND,
    list::COMMAND,
    assemble::COMMAND,
    patch::COMMAND,
    wake::COMMAND,
];

const NOTES: &str = "\
A file is named, or - for standard input. ADDRESS is up to four hexadecimal digits, all other
numbers are decimal. An option's value can stand behind = too. After -- nothing is an option.

--replace  OUT may be there already: it is replaced, and keeps its owner, group and mode

Exit status
  0  done; compare: the same, check: all valid, judge: all right, run: it came to its budget
  1  the answer is no; compare: they differ, check: one is refused, judge: one is not right,
     run: ended by 3 or 4, its steps written; assemble, patch: a line is refused, nothing written
  2  it could not be done: not understood, a file that cannot be read or written, a refused input
The last line says what was written and what was not.
";

pub fn carry_out(arguments: impl Iterator<Item = OsString>) -> Result<Report, Trouble> {
    let mut given = arguments::sort(arguments)?;
    if given.has("--help") {
        return Ok(Report::answer(help(), Status::Done));
    }
    if given.has("--version") {
        return Ok(Report::answer(version(), Status::Done));
    }
    if given.plain.is_empty() {
        return Err(Trouble::usage(&format!(
            "a command is wanted, one of {}",
            names()
        )));
    }
    let command = find(given.plain.remove(0))?;
    command.takes(&given)?;
    let carried_out = (command.carry_out)(given);
    match command.writes {
        true => carried_out.map_err(|trouble| trouble.and("nothing was written")),
        false => carried_out,
    }
}

fn find(name: OsString) -> Result<&'static Command, Trouble> {
    ALL.iter()
        .find(|command| name == command.name)
        .ok_or_else(|| {
            let (typed, known) = (words::typed(&name), names());
            Trouble::usage(&format!("there is no command {typed}, only {known}"))
        })
}

fn names() -> String {
    let names: Vec<&str> = ALL.iter().map(|command| command.name).collect();
    names.join(", ")
}

impl Command {
    /// Whether all options are for this command, and standard input is read once.
    fn takes(&self, given: &Given) -> Result<(), Trouble> {
        let stranger = given
            .options()
            .find(|(option, _)| !self.options.contains(option));
        if let Some((option, _)) = stranger {
            return Err(Trouble::usage(&format!(
                "{option} is for {}, not for {}",
                takers(option),
                self.name
            )));
        }
        if given.readings_of_standard_input() > 1 {
            return Err(Trouble::usage("standard input can be read only once"));
        }
        Ok(())
    }

    fn wrong_form(&self) -> Trouble {
        Trouble::usage(&format!(
            "the form is: trnadulek-tool {} {}",
            self.name, self.form
        ))
    }

    /// As many arguments as the command takes.
    fn plain<const N: usize>(&self, given: &mut Given) -> Result<[PathBuf; N], Trouble> {
        let paths: Vec<PathBuf> = given.plain.drain(..).map(PathBuf::from).collect();
        paths.try_into().map_err(|_| self.wrong_form())
    }
}

/// The commands that take an option.
fn takers(option: &str) -> String {
    let takers: Vec<&str> = ALL
        .iter()
        .filter(|command| command.options.contains(&option))
        .map(|command| command.name)
        .collect();
    takers.join(", ")
}

fn help() -> String {
    let mut text =
        "Saved machines of the SM83 as files: a head (23 bytes) or an image (65,559 bytes).\n\n"
            .to_string();
    for command in &ALL {
        text += &format!("trnadulek-tool {} {}\n", command.name, command.form);
        for line in command.about.lines() {
            text += &format!("    {line}\n");
        }
    }
    text + "\n" + NOTES
}

fn version() -> String {
    let number = trnadulek::version();
    let (major, minor, patch) = (number / 10_000, number / 100 % 100, number % 100);
    format!(
        "trnadulek-tool {}, proved library {major}.{minor}.{patch}\n",
        env!("CARGO_PKG_VERSION")
    )
}
