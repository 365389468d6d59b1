//! Sets made from mGBA's core.

#![cfg(feature = "mgba")]

use std::collections::BTreeMap;
use std::path::{Path, PathBuf};
use std::process::{Command, Output};

fn call(arguments: &[&str]) -> Output {
    Command::new(env!("CARGO_BIN_EXE_published"))
        .args(arguments)
        .output()
        .unwrap()
}

fn text(bytes: &[u8]) -> String {
    String::from_utf8(bytes.to_vec()).unwrap()
}

/// A new set of three cases for each row.
fn made(name: &str, seed: &str) -> PathBuf {
    let folder = Path::new(env!("CARGO_TARGET_TMPDIR")).join(name);
    if folder.exists() {
        std::fs::remove_dir_all(&folder).unwrap();
    }
    let path = folder.to_str().unwrap();
    let made = call(&["make", path, "--seed", seed, "--cases", "3"]);
    assert_eq!(
        (made.status.code(), text(&made.stderr)),
        (Some(0), String::new())
    );
    assert!(text(&made.stdout).contains(&format!("500 files of 3 cases, seed {seed}")));
    folder
}

fn run(folder: &Path) -> (Option<i32>, String) {
    let ran = call(&["run", folder.to_str().unwrap()]);
    (ran.status.code(), text(&ran.stdout))
}

fn files(folder: &Path) -> BTreeMap<String, String> {
    std::fs::read_dir(folder)
        .unwrap()
        .map(|entry| {
            let path = entry.unwrap().path();
            let name = path.file_name().unwrap().to_str().unwrap().to_string();
            (name, std::fs::read_to_string(path).unwrap())
        })
        .collect()
}

#[test]
fn a_set_from_mgba_passes() {
    let folder = made("passes", "20");
    let (status, out) = run(&folder);
    assert_eq!(status, Some(0), "{out}");
    assert_eq!(
        out.lines().last(),
        Some("total: 500 files, 1500 cases, 1500 passed, 0 failed")
    );
    let names: Vec<_> = files(&folder).into_keys().collect();
    assert_eq!(names.len(), 500);
    for name in [
        "00.json",
        "10.json",
        "76.json",
        "ff.json",
        "cb 00.json",
        "cb ff.json",
    ] {
        assert!(names.iter().any(|other| other == name), "{name}");
    }
    for name in ["cb.json", "d3.json", "fd.json"] {
        assert!(names.iter().all(|other| other != name), "{name}");
    }
}

/// Replaces the last `from` in a file, and expects the set to fail by name.
fn corrupted(file: &str, from: &str, to: &str, failure: &str) {
    let folder = made("corrupted", "21");
    let path = folder.join(file);
    let good = std::fs::read_to_string(&path).unwrap();
    let at = good.rfind(from).unwrap();
    let bad = format!("{}{to}{}", &good[..at], &good[at + from.len()..]);
    std::fs::write(&path, bad).unwrap();
    let (status, out) = run(&folder);
    assert_eq!(status, Some(1));
    assert!(out.contains(&format!("{file}: 3 cases, 2 passed, 1 failed\n")));
    assert!(out.contains(failure), "{out}");
    assert_eq!(
        out.lines().last(),
        Some("total: 500 files, 1500 cases, 1499 passed, 1 failed")
    );
}

#[test]
fn a_corrupted_value_fails_by_name() {
    let cycles = "  failed: cb 37 0002 on second: cycles 2, expected 3\n";
    corrupted("cb 37.json", "\"cycles\":2", "\"cycles\":3", cycles);
    corrupted(
        "cb 37.json",
        "\"ei\":0",
        "\"ei\":1",
        "cb 37 0002 on second: ei 0, expected 1\n",
    );
    // No byte of that case is near address 20000.
    let ram = "00 0002 on second: ram 20000 0, expected 77\n";
    corrupted("00.json", "\"ram\":[", "\"ram\":[[20000,77],", ram);
}

#[test]
fn a_seed_gives_one_set() {
    let first = files(&made("first", "22"));
    let again = files(&made("again", "22"));
    let other = files(&made("other", "23"));
    assert_eq!(first, again);
    assert!(first.iter().all(|(name, text)| other[name] != *text));
}

#[test]
fn nothing_is_added_to_a_folder_in_use() {
    let folder = made("in use", "24");
    let before = files(&folder);
    let path = folder.to_str().unwrap();
    let again = call(&["make", path, "--seed", "25", "--cases", "1"]);
    assert_eq!(again.status.code(), Some(2));
    assert!(text(&again.stderr).contains("will not add to"));
    assert_eq!(text(&again.stderr).lines().count(), 1);
    assert_eq!(files(&folder), before);
}
