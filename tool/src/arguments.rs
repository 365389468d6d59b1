//! From the command line to words and options.

use std::ffi::{OsStr, OsString};
use std::os::unix::ffi::OsStrExt;

use crate::trouble::Trouble;
use crate::words;

struct Known {
    name: &'static str,
    /// How many values it takes, and what they are.
    values: usize,
    wants: &'static str,
    /// Whether it can be given more than once.
    often: bool,
}

const fn flag(name: &'static str) -> Known {
    known(name, 0, "no value")
}

const fn known(name: &'static str, values: usize, wants: &'static str) -> Known {
    Known {
        name,
        values,
        wants,
        often: false,
    }
}

const fn often(known: Known) -> Known {
    Known {
        often: true,
        ..known
    }
}

const KNOWN: [Known; 24] = [
    flag("--help"),
    flag("--version"),
    flag("--replace"),
    flag("--replace-ended"),
    flag("--all"),
    known("--dump", 1, "a file"),
    known("--cartridge", 1, "a file"),
    known("--af", 1, "a value"),
    known("--bc", 1, "a value"),
    known("--de", 1, "a value"),
    known("--hl", 1, "a value"),
    known("--sp", 1, "a value"),
    known("--pc", 1, "a value"),
    known("--ime", 1, "a value"),
    known("--mode", 1, "a value"),
    known("--at", 1, "an address"),
    known("--part", 1, "a file"),
    known("--from", 1, "an address"),
    known("--lines", 1, "a number"),
    known("--bank", 1, "a number"),
    known("--edition", 1, "old or new"),
    known("--out", 1, "a file"),
    often(known("--bytes", 1, "ADDRESS..ADDRESS")),
    often(known("--score", 2, "an address and a length")),
];

/// What was given, in order and not yet understood.
#[derive(Default)]
pub struct Given {
    pub plain: Vec<OsString>,
    options: Vec<(&'static str, Vec<OsString>)>,
}

pub fn sort(mut arguments: impl Iterator<Item = OsString>) -> Result<Given, Trouble> {
    let mut given = Given::default();
    while let Some(argument) = arguments.next() {
        let bytes = argument.as_bytes();
        if bytes == b"--" {
            given.plain.extend(arguments.by_ref());
        } else if bytes.starts_with(b"-") && bytes.len() > 1 {
            given.take(&argument, &mut arguments)?;
        } else {
            given.plain.push(argument);
        }
    }
    Ok(given)
}

/// An option's name, and what stands behind `=`.
fn split(argument: &OsStr) -> (&OsStr, Option<OsString>) {
    let bytes = argument.as_bytes();
    match bytes.iter().position(|byte| *byte == b'=') {
        Some(at) => (
            OsStr::from_bytes(&bytes[..at]),
            Some(OsStr::from_bytes(&bytes[at + 1..]).to_os_string()),
        ),
        None => (argument, None),
    }
}

fn find(name: &OsStr) -> Result<&'static Known, Trouble> {
    let name = if name == "-h" {
        OsStr::new("--help")
    } else {
        name
    };
    KNOWN
        .iter()
        .find(|known| OsStr::new(known.name) == name)
        .ok_or_else(|| Trouble::usage(&format!("there is no option {}", words::typed(name))))
}

impl Given {
    /// An option, its first value behind `=` or, as all others, the argument after it.
    fn take(
        &mut self,
        argument: &OsStr,
        arguments: &mut impl Iterator<Item = OsString>,
    ) -> Result<(), Trouble> {
        let (name, first) = split(argument);
        let known = find(name)?;
        let name = known.name;
        if self.has(name) && !known.often {
            return Err(Trouble::usage(&format!("{name} is given twice")));
        }
        if known.values == 0 && first.is_some() {
            return Err(Trouble::usage(&format!("{name} takes no value")));
        }
        let values = first.into_iter().chain(arguments).take(known.values);
        let values: Vec<OsString> = values.collect();
        if values.len() < known.values {
            return Err(Trouble::usage(&format!("{name} wants {}", known.wants)));
        }
        self.options.push((name, values));
        Ok(())
    }

    pub fn has(&self, name: &str) -> bool {
        self.options.iter().any(|(given, _)| *given == name)
    }

    /// Every option with its values, in the order in which they were given.
    pub fn options(&self) -> impl Iterator<Item = (&'static str, &[OsString])> {
        self.options
            .iter()
            .map(|(name, values)| (*name, values.as_slice()))
    }

    /// The values of an option, as often as it was given.
    pub fn all<'a>(&'a self, name: &'a str) -> impl Iterator<Item = &'a [OsString]> {
        self.options()
            .filter(move |(given, _)| *given == name)
            .map(|(_, values)| values)
    }

    /// The value of an option that takes one.
    pub fn value(&self, name: &str) -> Option<&OsStr> {
        let values = self.options().find(|(given, _)| *given == name)?.1;
        values.first().map(OsString::as_os_str)
    }

    /// How often standard input is to be read.
    pub fn readings_of_standard_input(&self) -> usize {
        let values = self.options.iter().flat_map(|(_, values)| values);
        let all = self.plain.iter().chain(values);
        all.filter(|argument| *argument == "-").count()
    }
}
