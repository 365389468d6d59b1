//! Reading files and standard input.

use std::fs::{self, File, Metadata};
use std::io::{self, Read};
use std::os::unix::fs::MetadataExt;
use std::os::unix::io::AsFd;
use std::path::{Path, PathBuf};

use crate::trouble::Trouble;
use crate::{unix, words};

/// Far more than any cartridge or any text about one has.
pub const LARGEST: usize = 67_108_864;

/// Which file it is, whatever its name.
pub type Identity = (u64, u64);

pub fn identity(found: &Metadata) -> Identity {
    (found.dev(), found.ino())
}

pub struct Input {
    pub path: PathBuf,
    pub bytes: Vec<u8>,
    /// How many bytes there are, in words.
    pub length: String,
    pub identity: Identity,
}

impl Input {
    /// Reads a file, or standard input for `-`. Of more than `most` bytes it has one more than that.
    pub fn read(path: &Path, most: usize) -> Result<Self, Trouble> {
        let file = match path.to_str() {
            Some("-") => standard_input()?,
            _ => ordinary_file(path)?,
        };
        Input::take(path, file, most).map_err(|error| Trouble::file(path, &error))
    }

    /// The same of a file that must have no more.
    pub fn read_whole(path: &Path, most: usize) -> Result<Self, Trouble> {
        let input = Input::read(path, most)?;
        if input.bytes.len() > most {
            let most = words::grouped(most as u64);
            let words = format!("found {} bytes, wanted at most {most}", input.length);
            return Err(Trouble::said(path, &words));
        }
        Ok(input)
    }

    fn take(path: &Path, file: File, most: usize) -> io::Result<Self> {
        let found = file.metadata()?;
        let mut bytes = Vec::new();
        file.take(most as u64 + 1).read_to_end(&mut bytes)?;
        Ok(Input {
            path: path.to_path_buf(),
            length: length(bytes.len(), &found, most),
            identity: identity(&found),
            bytes,
        })
    }

    pub fn name(&self) -> String {
        words::name(&self.path)
    }
}

/// Nobody types an image, so a terminal is not waited for.
fn standard_input() -> Result<File, Trouble> {
    let input = io::stdin();
    let name = Path::new("-");
    if unix::is_terminal(&input) {
        return Err(Trouble::said(
            name,
            "a terminal; a file or a pipe is wanted",
        ));
    }
    let own = input.as_fd().try_clone_to_owned();
    own.map(File::from)
        .map_err(|error| Trouble::file(name, &error))
}

/// A pipe is not even opened: that would wait for somebody to write to it.
fn ordinary_file(path: &Path) -> Result<File, Trouble> {
    let trouble = |error| Trouble::file(path, &error);
    let found = fs::metadata(path).map_err(trouble)?.file_type();
    if found.is_file() {
        return File::open(path).map_err(trouble);
    }
    let hint = "no file; what it gives can be read from standard input, as -";
    Err(Trouble::said(
        path,
        &match words::kind(found) {
            "a folder" => "a folder, no file".to_string(),
            kind => format!("{kind}, {hint}"),
        },
    ))
}

fn length(read: usize, found: &Metadata, most: usize) -> String {
    if read <= most {
        return words::grouped(read as u64);
    }
    if found.is_file() {
        return words::grouped(found.len().max(read as u64));
    }
    format!("more than {}", words::grouped(most as u64))
}
