//! Runs opcode test sets in the per-opcode JSON form, and makes such sets from
//! mGBA's core.
//!
//! A set is a folder. Each of its `*.json` files is an array of cases, and a
//! case is one instruction: its name, the machine before it (`initial`), the
//! machine after it (`final`) and its `cycles`.

mod arguments;
mod case;
mod compare;
mod folder;
mod house;
mod json;
mod judge;
mod make;
#[cfg(feature = "proved")]
mod proved;
mod run;

use arguments::Request;
use std::io::Write;
use std::process::ExitCode;

const FAILED: u8 = 1;
const TROUBLE: u8 = 2;

fn main() -> ExitCode {
    let arguments: Vec<_> = std::env::args_os().skip(1).collect();
    match perform(&arguments) {
        Ok(true) => ExitCode::SUCCESS,
        Ok(false) => ExitCode::from(FAILED),
        Err(trouble) => {
            // Nothing is left to tell it to if the error output is closed.
            let _ = writeln!(std::io::stderr(), "published: {trouble}");
            ExitCode::from(TROUBLE)
        }
    }
}

/// Whether all is well, or the one line that says why nothing can be said.
fn perform(arguments: &[std::ffi::OsString]) -> Result<bool, String> {
    let mut out = std::io::stdout().lock();
    match arguments::read(arguments)? {
        Request::Run { folder, house } => run::run(&folder, house, &mut out),
        Request::Make {
            folder,
            seed,
            cases,
        } => make::make(&folder, seed, cases, &mut out).map(|()| true),
    }
}
