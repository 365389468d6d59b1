//! Where the build finds the library, and what it says of an old one: a host of this crate, in a
//! repository of its own, is given to cargo.

use std::fs;
use std::path::{Path, PathBuf};
use std::process::{Command, Output};
use std::thread::sleep;
use std::time::Duration;

const WARNING: &str = "rt lib in crates/trnadulek makes it anew";

/// A repository with a copy of this crate in `rust`, a proved source and a host.
struct Repository(PathBuf);

impl Repository {
    fn new(name: &str) -> Self {
        let root =
            std::env::temp_dir().join(format!("trnadulek-build-{name}-{}", std::process::id()));
        let made = Repository(root);
        made.write("crates.txt", "core:\n");
        made.write("crates/core/src/lib.rt", "");
        made.write("crates/core/specs/Lib.antt", "");
        made.write(
            "host/Cargo.toml",
            "[package]\nname = \"host\"\nversion = \"0.1.0\"\nedition = \"2021\"\n\
             [dependencies]\ntrnadulek = { path = \"../rust\" }\n[workspace]\n",
        );
        made.write("host/src/lib.rs", "pub use trnadulek::step;\n");
        let here = Path::new(env!("CARGO_MANIFEST_DIR"));
        fs::create_dir_all(made.0.join("rust")).expect("a folder is made");
        for part in ["Cargo.toml", "build.rs", "build", "src"] {
            copy(&here.join(part), &made.0.join("rust").join(part));
        }
        made
    }

    fn write(&self, name: &str, text: &str) {
        let path = self.0.join(name);
        fs::create_dir_all(path.parent().expect("a folder")).expect("a folder is made");
        fs::write(path, text).expect("a file is written");
    }

    /// A file that was written after all that are there.
    fn write_later(&self, name: &str, text: &str) {
        sleep(Duration::from_millis(50));
        self.write(name, text);
    }

    /// Checks the host, with cargo called in its folder. An empty library is enough for that.
    fn check(&self, library: Option<&str>) -> Output {
        let host = self.0.join("host");
        let mut cargo = Command::new(std::env::var_os("CARGO").expect("cargo runs the tests"));
        cargo.args(["check", "--offline", "--target-dir"]);
        cargo.arg(self.0.join("built"));
        cargo.current_dir(&host).env("PWD", &host);
        cargo.env_remove("CARGO_BUILD_TARGET");
        match library {
            Some(folder) => cargo.env("TRNADULEK_LIB", folder),
            None => cargo.env_remove("TRNADULEK_LIB"),
        };
        cargo.output().expect("cargo starts")
    }

    /// Whether the host is linked with the library in this folder of the repository.
    fn is_linked_from(&self, library: &str, folder: &str) -> bool {
        let output = self.check(Some(library));
        assert!(output.status.success(), "{}", said(&output));
        let folder = self.0.join(folder).canonicalize().expect("a folder");
        let line = format!("cargo:rustc-link-search=native={}", folder.display());
        let told = fs::read_dir(self.0.join("built/debug/build")).expect("a folder is read");
        told.filter_map(|entry| fs::read_to_string(entry.ok()?.path().join("output")).ok())
            .any(|told| told.lines().any(|told| told == line))
    }

    fn warns(&self, library: Option<&str>) -> bool {
        let output = self.check(library);
        assert!(output.status.success(), "{}", said(&output));
        said(&output).contains(WARNING)
    }
}

impl Drop for Repository {
    fn drop(&mut self) {
        // What is left in the folder for temporary files harms nobody.
        let _ = fs::remove_dir_all(&self.0);
    }
}

fn copy(from: &Path, to: &Path) {
    if !from.is_dir() {
        fs::copy(from, to).expect("a file is copied");
        return;
    }
    fs::create_dir_all(to).expect("a folder is made");
    for entry in fs::read_dir(from).expect("a folder is read") {
        let entry = entry.expect("an entry");
        copy(&entry.path(), &to.join(entry.file_name()));
    }
}

fn said(output: &Output) -> String {
    String::from_utf8_lossy(&output.stderr).into_owned()
}

#[test]
fn a_library_that_is_older_than_the_proved_sources_is_reported() {
    let repository = Repository::new("older");
    repository.write_later("crates/trnadulek/out/libtrnadulek.a", "");
    assert!(!repository.warns(None));
    for source in [
        "crates.txt",
        "crates/core/src/lib.rt",
        "crates/core/specs/Lib.antt",
    ] {
        repository.write_later(source, "changed\n");
        assert!(repository.warns(None), "{source}");
        assert!(repository.warns(Some("../crates/trnadulek/out")), "{source}");
        repository.write_later("crates/trnadulek/out/libtrnadulek.a", "");
        assert!(!repository.warns(None), "{source}");
    }
}

#[test]
fn a_relative_folder_is_taken_from_where_cargo_is_called_and_then_from_the_repository() {
    let repository = Repository::new("relative");
    repository.write("lib/libtrnadulek.a", "");
    assert!(repository.is_linked_from("lib", "lib"));
    repository.write("host/lib/libtrnadulek.a", "");
    assert!(repository.is_linked_from("./lib", "host/lib"));
    // A library from elsewhere has no sources beside it, so it is never too old.
    repository.write_later("crates.txt", "changed\n");
    assert!(!repository.warns(Some("lib")));
    let output = repository.check(Some("nowhere"));
    assert!(!output.status.success());
    for place in ["host/nowhere", "nowhere"] {
        let place = repository.0.join(place).display().to_string();
        assert!(said(&output).contains(&place), "{}", said(&output));
    }
}
