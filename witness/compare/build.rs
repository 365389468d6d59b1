//! Links the benchmark's plain C core: the archive libplain.a in the folder that PLAIN_LIB names,
//! so that the very core that is measured is compared, or else one that is compiled here.

use std::env;
use std::ffi::OsString;
use std::path::{Path, PathBuf};
use std::process::{exit, Command};

const SOURCES: &str = "../../bench/plain";
const ARCHIVE: &str = "libplain.a";

fn main() {
    println!("cargo:rerun-if-changed={SOURCES}");
    println!("cargo:rerun-if-env-changed=PLAIN_LIB");
    let folder = match env::var_os("PLAIN_LIB") {
        Some(folder) => PathBuf::from(folder),
        None => compiled(),
    };
    let archive = folder.join(ARCHIVE);
    if !archive.is_file() {
        eprintln!("there is no {}", archive.display());
        exit(1);
    }
    println!("cargo:rerun-if-changed={}", archive.display());
    println!("cargo:rustc-link-search=native={}", folder.display());
    println!("cargo:rustc-link-lib=static=plain");
}

fn compiled() -> PathBuf {
    let out = PathBuf::from(env::var_os("OUT_DIR").expect("cargo names OUT_DIR"));
    let object = out.join("plain.o");
    let source = Path::new(SOURCES).join("plain.c");
    run(Command::new(c_compiler())
        .args(["-std=gnu11", "-O3", "-Wall", "-Wextra", "-Werror", "-c"])
        .arg(source)
        .arg("-o")
        .arg(&object));
    run(Command::new("ar")
        .arg("crs")
        .arg(out.join(ARCHIVE))
        .arg(&object));
    out
}

fn c_compiler() -> OsString {
    println!("cargo:rerun-if-env-changed=CC");
    env::var_os("CC").unwrap_or_else(|| "gcc".into())
}

fn run(command: &mut Command) {
    let status = command.status();
    if !matches!(&status, Ok(status) if status.success()) {
        eprintln!(
            "the plain core did not build ({command:?}): gcc, or what CC names, and ar are needed"
        );
        exit(1);
    }
}
