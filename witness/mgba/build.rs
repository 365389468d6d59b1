//! Compiles the shim with gcc and links it with mGBA's library.

use std::path::Path;
use std::process::{exit, Command};

fn main() {
    println!("cargo:rerun-if-changed=shim.c");
    let out = std::env::var("OUT_DIR").expect("cargo names OUT_DIR");
    let object = Path::new(&out).join("shim.o");
    let archive = Path::new(&out).join("libmgba_shim.a");
    println!("cargo:rerun-if-env-changed=CC");
    let compiler = std::env::var_os("CC").unwrap_or_else(|| "gcc".into());
    run(Command::new(compiler)
        .args([
            "-std=gnu11",
            "-O2",
            "-Wall",
            "-Wextra",
            "-Werror",
            "-c",
            "shim.c",
            "-o",
        ])
        .arg(&object));
    run(Command::new("ar").arg("crs").arg(&archive).arg(&object));
    println!("cargo:rustc-link-search=native={out}");
    println!("cargo:rustc-link-lib=static=mgba_shim");
    println!("cargo:rustc-link-lib=dylib=mgba");
}

fn run(command: &mut Command) {
    let status = command.status();
    if !matches!(&status, Ok(status) if status.success()) {
        eprintln!(
            "witness two did not build ({command:?}): gcc, or what CC names, ar and libmgba-dev \
             are needed"
        );
        exit(1);
    }
}
