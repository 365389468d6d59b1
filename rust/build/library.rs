//! Where the library is, and whether it is older than what it was proved from.

use std::fs;
use std::path::{Path, PathBuf};
use std::time::SystemTime;

pub const ARCHIVE: &str = "libtrnadulek.a";
pub const FOLDER_VARIABLE: &str = "TRNADULEK_LIB";

/// The library's crate, where `rt lib` makes it.
pub fn crate_folder(repository: &Path) -> PathBuf {
    repository.join("crates").join("trnadulek")
}

/// Where `rt lib` puts the library.
pub fn default_folder(repository: &Path) -> PathBuf {
    crate_folder(repository).join("out")
}

pub fn holds_archive(folder: &Path) -> bool {
    folder.join(ARCHIVE).is_file()
}

/// The folders that a word can mean, in the order in which they are looked at: a relative one is
/// taken from where cargo was called, then from the repository.
pub fn places(word: &Path, called_in: Option<&Path>, repository: &Path) -> Vec<PathBuf> {
    if word.is_absolute() {
        return vec![word.to_path_buf()];
    }
    let bases = called_in.into_iter().chain([repository]);
    bases.map(|base| base.join(word)).collect()
}

/// The first of the folders that holds the library, by its whole name without links.
pub fn first_with_archive(places: &[PathBuf]) -> Option<PathBuf> {
    let folder = places.iter().find(|folder| holds_archive(folder))?;
    folder.canonicalize().ok()
}

pub fn not_found(word: &Path, places: &[PathBuf]) -> String {
    let looked: Vec<String> = places
        .iter()
        .map(|folder| folder.display().to_string())
        .collect();
    format!(
        "{FOLDER_VARIABLE} is {}, and there is no {ARCHIVE} in {}",
        word.display(),
        looked.join(" or ")
    )
}

/// Whether the archive lies where the repository's sources are proved to.
pub fn is_the_repository_s(archive: &Path, repository: &Path) -> bool {
    let own = default_folder(repository).join(ARCHIVE);
    match (archive.canonicalize(), own.canonicalize()) {
        (Ok(archive), Ok(own)) => archive == own,
        _ => false,
    }
}

/// What the library is proved and compiled from: the list of crates, their code and their
/// definitions.
pub fn sources(repository: &Path) -> Vec<PathBuf> {
    let mut crates = entries(&repository.join("crates"));
    crates.sort();
    let parts = crates
        .iter()
        .flat_map(|name| [name.join("src"), name.join("specs")]);
    let list = repository.join("crates.txt");
    [list]
        .into_iter()
        .chain(parts)
        .filter(|path| path.exists())
        .collect()
}

/// A source that was written after the archive.
pub fn newer_than(archive: &Path, sources: &[PathBuf]) -> Option<PathBuf> {
    let made = written(archive)?;
    sources.iter().find_map(|source| newer_in(source, made))
}

/// The first file in a folder, or the file itself, that was written later.
fn newer_in(path: &Path, made: SystemTime) -> Option<PathBuf> {
    if path.is_dir() {
        let mut inside = entries(path);
        inside.sort();
        return inside.iter().find_map(|path| newer_in(path, made));
    }
    written(path)
        .filter(|time| *time > made)
        .map(|_| path.to_path_buf())
}

fn written(path: &Path) -> Option<SystemTime> {
    fs::metadata(path).and_then(|data| data.modified()).ok()
}

/// What a folder holds; nothing where there is no such folder.
fn entries(folder: &Path) -> Vec<PathBuf> {
    match fs::read_dir(folder) {
        Ok(entries) => entries.flatten().map(|entry| entry.path()).collect(),
        Err(_) => Vec::new(),
    }
}
