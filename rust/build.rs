//! Finds libtrnadulek.a, or has it made: in the folder that TRNADULEK_LIB names, else in the
//! repository's crates/trnadulek/out, where `rt lib`, called in crates/trnadulek, puts it once it
//! is proved.

#[path = "build/library.rs"]
mod library;

use library::{ARCHIVE, FOLDER_VARIABLE};
use std::env;
use std::path::{Path, PathBuf};
use std::process::{exit, Command};

fn main() {
    println!("cargo:rerun-if-env-changed={FOLDER_VARIABLE}");
    let repository = repository();
    let folder = match env::var_os(FOLDER_VARIABLE) {
        Some(word) => named(Path::new(&word), &repository),
        None => found_or_made(&repository),
    };
    let archive = folder.join(ARCHIVE);
    println!("cargo:rerun-if-changed={}", archive.display());
    warn_if_older(&archive, &repository);
    println!("cargo:rustc-link-search=native={}", folder.display());
    println!("cargo:rustc-link-lib=static=trnadulek");
}

/// The folder that the variable names. Cargo runs this program in the crate's own folder, and PWD
/// is still the one where cargo was called.
fn named(word: &Path, repository: &Path) -> PathBuf {
    if word.is_relative() {
        println!("cargo:rerun-if-env-changed=PWD");
    }
    let called_in = env::var_os("PWD").map(PathBuf::from);
    let places = library::places(word, called_in.as_deref(), repository);
    match library::first_with_archive(&places) {
        Some(folder) => folder,
        None => give_up(&library::not_found(word, &places)),
    }
}

fn found_or_made(repository: &Path) -> PathBuf {
    let folder = library::default_folder(repository);
    if !library::holds_archive(&folder) {
        make(repository);
    }
    if !library::holds_archive(&folder) {
        give_up(&format!(
            "rt lib left no {}",
            folder.join(ARCHIVE).display()
        ));
    }
    folder
}

fn make(repository: &Path) {
    match Command::new("rt")
        .arg("lib")
        .current_dir(library::crate_folder(repository))
        .status()
    {
        Ok(status) if status.success() => {}
        Ok(status) => give_up(&format!("rt lib in crates/trnadulek: {status}")),
        Err(error) => give_up(&format!(
            "rt lib in crates/trnadulek: {error}; set {FOLDER_VARIABLE} to the folder of {ARCHIVE}"
        )),
    }
}

/// Says so where the repository's own library is older than what it was proved from. A library from
/// elsewhere has no sources to be compared with.
fn warn_if_older(archive: &Path, repository: &Path) {
    if !library::is_the_repository_s(archive, repository) {
        return;
    }
    let sources = library::sources(repository);
    for source in &sources {
        println!("cargo:rerun-if-changed={}", source.display());
    }
    if let Some(newer) = library::newer_than(archive, &sources) {
        println!(
            "cargo:warning={} is older than {}: rt lib in crates/trnadulek makes it anew",
            archive.display(),
            newer.display()
        );
    }
}

fn repository() -> PathBuf {
    let here =
        PathBuf::from(env::var_os("CARGO_MANIFEST_DIR").expect("cargo names the crate's folder"));
    here.parent().map(Path::to_path_buf).unwrap_or(here)
}

fn give_up(why: &str) -> ! {
    eprintln!("{why}");
    exit(1);
}
