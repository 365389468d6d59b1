//! Files and the standard streams.

use super::failure::Failure;
use std::ffi::OsStr;
use std::fs::{remove_file, File, OpenOptions};
use std::io::{stdin, stdout, Error, Read, Write};

/// The bytes of a file. One byte past the limit is enough to see that a file
/// is too long, so no more is read.
pub fn read_at_most(path: &OsStr, limit: usize) -> Result<Vec<u8>, Failure> {
    File::open(path)
        .and_then(|file| take(file, limit))
        .map_err(|error| trouble("cannot read", path, &error))
}

/// The bytes of the standard input, read as [`read_at_most`] reads a file.
pub fn read_input(limit: usize) -> Result<Vec<u8>, Failure> {
    take(stdin().lock(), limit).map_err(|error| input_trouble(&error))
}

/// All bytes of the standard input, however many.
pub fn read_all_input() -> Result<Vec<u8>, Failure> {
    let mut bytes = Vec::new();
    let read = stdin().lock().read_to_end(&mut bytes);
    read.map_err(|error| input_trouble(&error))?;
    Ok(bytes)
}

/// Makes a file that must not exist yet.
pub fn new_file(path: &OsStr, bytes: &[u8]) -> Result<(), Failure> {
    let mut file = OpenOptions::new()
        .write(true)
        .create_new(true)
        .open(path)
        .map_err(|error| trouble("cannot make", path, &error))?;
    file.write_all(bytes).map_err(|error| {
        // The file is ours and incomplete; the first error is the one to tell.
        let _ = remove_file(path);
        trouble("cannot write", path, &error)
    })
}

/// Writes to the standard output.
pub fn say(text: &str) -> Result<(), Failure> {
    say_bytes(text.as_bytes())
}

/// Writes bytes to the standard output.
pub fn say_bytes(bytes: &[u8]) -> Result<(), Failure> {
    let mut out = stdout().lock();
    out.write_all(bytes)
        .and_then(|()| out.flush())
        .map_err(|error| Failure::Trouble(format!("cannot write the answer: {error}")))
}

fn take(source: impl Read, limit: usize) -> Result<Vec<u8>, Error> {
    let mut bytes = Vec::new();
    source.take(limit as u64 + 1).read_to_end(&mut bytes)?;
    Ok(bytes)
}

fn input_trouble(error: &Error) -> Failure {
    Failure::Trouble(format!("cannot read the standard input: {error}"))
}

fn trouble(what: &str, path: &OsStr, error: &Error) -> Failure {
    Failure::Trouble(format!("{what} {path:?}: {error}"))
}
