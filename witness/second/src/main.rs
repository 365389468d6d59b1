//! The second program at a terminal.

mod command;

use std::io::Write;
use std::process::ExitCode;

fn main() -> ExitCode {
    let arguments: Vec<_> = std::env::args_os().skip(1).collect();
    match command::perform(&arguments) {
        Ok(()) => ExitCode::SUCCESS,
        Err(failure) => {
            // Nothing is left to tell it to if the error output is closed.
            let _ = writeln!(std::io::stderr(), "second: {failure}");
            ExitCode::from(failure.status())
        }
    }
}
