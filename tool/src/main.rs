//! Saved machines as files. Whatever there is to know about a head or an image is asked of the
//! proved core.

#![deny(unsafe_code)]

mod arguments;
mod assembling;
mod cartridge;
mod commands;
mod differences;
mod input;
mod kind;
mod listing;
mod numbers;
mod progress;
mod refused;
mod report;
mod saved;
mod score;
mod slices;
mod target;
mod trouble;
mod unix;
mod words;

use std::env;
use std::io::{self, ErrorKind, Write};
use std::process::ExitCode;

use report::{Report, Status};

fn main() -> ExitCode {
    let status = match commands::carry_out(env::args_os().skip(1)) {
        Ok(report) => tell(&report),
        Err(trouble) => {
            complain(&trouble.line());
            Status::Trouble
        }
    };
    ExitCode::from(status.number())
}

/// What is wrong comes first, so that the last line is the report's own.
fn tell(report: &Report) -> Status {
    for line in &report.complaints {
        complain(line);
    }
    match print(&report.text) {
        Ok(()) => report.status,
        Err(error) => {
            let written = report.written().unwrap_or_default();
            let error = words::file_error(&error);
            complain(&format!("standard output: {error}{written}"));
            Status::Trouble
        }
    }
}

/// A reader who has seen enough and left is no trouble.
fn print(text: &str) -> io::Result<()> {
    let mut out = io::stdout().lock();
    match out.write_all(text.as_bytes()).and_then(|()| out.flush()) {
        Err(error) if error.kind() != ErrorKind::BrokenPipe => Err(error),
        _ => Ok(()),
    }
}

/// Where standard error is closed nobody can be told; the exit status still says it.
fn complain(line: &str) {
    let _ = writeln!(io::stderr(), "trnadulek-tool: {line}");
}
