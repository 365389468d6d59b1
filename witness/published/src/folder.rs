//! The folder that a test set is read from.

use std::fs::{read, read_dir};
use std::path::{Path, PathBuf};

/// The `*.json` files of a folder, in the order of their names.
pub fn json_files(folder: &Path) -> Result<Vec<PathBuf>, String> {
    let mut files = entries(folder)?;
    files.retain(|path| path.extension() == Some("json".as_ref()));
    if files.is_empty() {
        return Err(format!("{folder:?} holds no *.json file"));
    }
    files.sort();
    Ok(files)
}

/// Everything that stands in a folder.
pub fn entries(folder: &Path) -> Result<Vec<PathBuf>, String> {
    read_dir(folder)
        .and_then(|entries| entries.map(|entry| Ok(entry?.path())).collect())
        .map_err(|error| format!("cannot read {folder:?}: {error}"))
}

/// The text of a file, or the line about what is wrong with it.
pub fn text(path: &Path) -> Result<String, String> {
    let bytes = read(path).map_err(|error| format!("cannot read {path:?}: {error}"))?;
    String::from_utf8(bytes).map_err(|error| {
        let at = error.utf8_error().valid_up_to();
        bad_file(path, at, "not UTF-8")
    })
}

pub fn bad_file(path: &Path, at: usize, what: &str) -> String {
    format!("{path:?} at byte {at}: {what}")
}
