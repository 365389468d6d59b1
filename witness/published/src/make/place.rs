//! The folder that a test set is made in.

use crate::folder::entries;
use std::fs::{create_dir_all, OpenOptions};
use std::io::Write;
use std::path::Path;

/// Makes sure that a folder is there and has nothing in it.
pub fn empty_folder(folder: &Path) -> Result<(), String> {
    create_dir_all(folder).map_err(|error| format!("cannot make {folder:?}: {error}"))?;
    if entries(folder)?.is_empty() {
        return Ok(());
    }
    Err(format!("will not add to {folder:?}: it is not empty"))
}

/// Makes a file that must not exist yet.
pub fn new_file(path: &Path, text: &str) -> Result<(), String> {
    OpenOptions::new()
        .write(true)
        .create_new(true)
        .open(path)
        .and_then(|mut file| file.write_all(text.as_bytes()))
        .map_err(|error| format!("cannot make {path:?}: {error}"))
}
