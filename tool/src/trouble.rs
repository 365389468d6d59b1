use std::ffi::OsStr;
use std::io;
use std::path::Path;

use crate::words;

/// Why a command could not be carried out.
#[derive(Debug)]
pub enum Trouble {
    /// It was not understood.
    Usage(String),
    /// It was understood, but it cannot be done.
    Failed(String),
}

impl Trouble {
    pub fn usage(what: &str) -> Self {
        Trouble::Usage(what.to_string())
    }

    /// What was typed where something else is wanted.
    pub fn wrong(place: &str, found: &OsStr, wanted: &str) -> Self {
        let found = match found.is_empty() {
            true => "nothing".to_string(),
            false => words::typed(found),
        };
        Trouble::Usage(format!("{place}: found {found}, wanted {wanted}"))
    }

    pub fn said(path: &Path, what: &str) -> Self {
        Trouble::Failed(format!("{}: {what}", words::name(path)))
    }

    pub fn file(path: &Path, error: &io::Error) -> Self {
        Trouble::said(path, &words::file_error(error))
    }

    /// What it means for the files.
    pub fn and(self, what: &str) -> Self {
        match self {
            Trouble::Failed(line) => Trouble::Failed(format!("{line}; {what}")),
            usage => usage,
        }
    }

    pub fn line(&self) -> String {
        match self {
            Trouble::Usage(what) => format!("{what}; nothing was done (--help says how)"),
            Trouble::Failed(what) => what.clone(),
        }
    }
}
