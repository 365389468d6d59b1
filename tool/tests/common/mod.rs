//! What the tests share; each uses a part of it. The bytes and values are document 01's.
#![allow(dead_code)]

use std::ffi::OsStr;
use std::fs;
use std::io::{self, Write};
use std::path::{Path, PathBuf};
use std::process::{self, Command, Output, Stdio};

pub const TOOL: &str = env!("CARGO_BIN_EXE_trnadulek-tool");

/// A folder of one test alone, in which the tool runs. It goes when the test is over.
pub struct Bench(pub PathBuf);

impl Bench {
    pub fn new(name: &str) -> Self {
        let folder =
            Path::new(env!("CARGO_TARGET_TMPDIR")).join(format!("{name}-{}", process::id()));
        let _ = fs::remove_dir_all(&folder);
        fs::create_dir_all(&folder).unwrap();
        Bench(folder)
    }

    pub fn put(&self, name: &str, bytes: &[u8]) {
        fs::write(self.0.join(name), bytes).unwrap();
    }

    pub fn get(&self, name: &str) -> Vec<u8> {
        fs::read(self.0.join(name)).unwrap()
    }

    pub fn names(&self) -> Vec<String> {
        let mut names: Vec<_> = fs::read_dir(&self.0)
            .unwrap()
            .map(|entry| entry.unwrap().file_name().into_string().unwrap())
            .collect();
        names.sort();
        names
    }

    pub fn call<S: AsRef<OsStr>>(&self, arguments: &[S]) -> Answer {
        Answer::new(self.command().args(arguments).output())
    }

    /// The tool, ended with 124 where it would wait or run for ever.
    fn command(&self) -> Command {
        let mut command = Command::new("timeout");
        command.args(["100", TOOL]).current_dir(&self.0);
        command
    }

    /// The same with bytes on standard input.
    pub fn fed(&self, line: &str, bytes: &[u8]) -> Answer {
        let mut command = self.command();
        let streams = command.args(line.split_whitespace()).stdin(Stdio::piped());
        let streams = streams.stdout(Stdio::piped()).stderr(Stdio::piped());
        let mut child = streams.spawn().unwrap();
        // A tool that refuses before it has read everything closes the pipe.
        let _ = child.stdin.take().unwrap().write_all(bytes);
        Answer::new(child.wait_with_output())
    }

    /// The same with the words of one line.
    pub fn tool(&self, line: &str) -> Answer {
        self.call(&line.split_whitespace().collect::<Vec<_>>())
    }

    /// A line for the shell, in which $TOOL is the tool.
    pub fn shell(&self, line: &str) -> Answer {
        let mut command = Command::new("sh");
        command.args(["-c", line]).env("TOOL", TOOL);
        Answer::new(command.current_dir(&self.0).output())
    }
}

impl Drop for Bench {
    fn drop(&mut self) {
        let _ = fs::remove_dir_all(&self.0);
    }
}

#[derive(Debug)]
pub struct Answer {
    /// None where a signal ended it.
    pub exit: Option<i32>,
    pub out: String,
    pub err: String,
}

impl Answer {
    pub fn new(output: io::Result<Output>) -> Self {
        let output = output.unwrap();
        Answer {
            exit: output.status.code(),
            out: String::from_utf8(output.stdout).unwrap(),
            err: String::from_utf8(output.stderr).unwrap(),
        }
    }

    /// Done, without a word on standard error; what it printed.
    #[track_caller]
    pub fn done(self) -> String {
        assert_eq!((self.exit, self.err.as_str()), (Some(0), ""), "{self:?}");
        self.out
    }

    /// It could not be done: status 2 with one line on standard error that has these words, and
    /// nothing printed.
    #[track_caller]
    pub fn failed(self, words: &str) {
        assert_eq!((self.exit, self.out.as_str()), (Some(2), ""), "{self:?}");
        self.complained(words);
    }

    /// The same of a command that writes: the line ends by saying that nothing was written.
    #[track_caller]
    pub fn wrote_nothing(self, words: &str) {
        assert!(self.err.ends_with("; nothing was written\n"), "{self:?}");
        self.failed(words);
    }

    /// The answer is no, without a word on standard error; what it printed.
    #[track_caller]
    pub fn no(self) -> String {
        assert_eq!((self.exit, self.err.as_str()), (Some(1), ""), "{self:?}");
        self.out
    }

    /// Ended by an exit code without a word.
    #[track_caller]
    pub fn silent(self, exit: i32) {
        let said = format!("{}{}", self.out, self.err);
        assert_eq!((self.exit, said.as_str()), (Some(exit), ""));
    }

    #[track_caller]
    pub fn complained(&self, words: &str) {
        assert_eq!(self.err.matches('\n').count(), 1, "{self:?}");
        assert!(
            self.err.ends_with('\n') && self.err.contains(words),
            "{self:?}"
        );
    }
}

pub fn memory(parts: &[(usize, &[u8])]) -> Vec<u8> {
    let mut memory = vec![0; 65_536];
    for (at, bytes) in parts {
        memory[*at..at + bytes.len()].copy_from_slice(bytes);
    }
    memory
}

pub const ADDING: [u8; 10] = [0xA7, 0x1A, 0x8E, 0x27, 0x22, 0x13, 0x05, 0x20, 0xF8, 0xC9];

/// The memory of the worked example.
pub fn worked_memory() -> Vec<u8> {
    memory(&[
        (0x0150, &ADDING),
        (0xC000, &[0x99, 0x01]),
        (0xC100, &[0x01, 0x00]),
        (0xDFFE, &[0x34, 0x12]),
    ])
}

/// The start values of the worked example, for `make`.
pub const WORKED_START: &str = "--pc 0150 --hl C000 --de C100 --sp DFFE --bc 0200";

/// The worked example's head before the run, byte for byte.
pub const WORKED_HEAD: [u8; 23] = [
    1, 0, 0, 0, 14, 0, 0, 2, 0, 0xC1, 0, 0xC0, 0, 0xDF, 0xFE, 0x01, 0x50, 0, 0, 0, 1, 0, 0,
];

/// What `show` says of the worked example after the run, below its first line.
pub const WORKED_SHOWN: &str = "\
AF       02C0
BC       0000
DE       C102
HL       C002
SP       E000
PC       1234
flags    ZN--
IME      Off
mode     Running
IE       00
IF       00
pending  00
at PC    00
at SP    0000
";

/// The worked example's head after the run, byte for byte, from the line that document 01 has for
/// it.
pub const WORKED_HEAD_AFTER: [u8; 23] = [
    1, 0, 0, 0, 14, 0x02, 0xC0, 0, 0, 0xC1, 0x02, 0xC0, 0x02, 0xE0, 0, 0x12, 0x34, 0, 0, 0, 1, 0, 0,
];

/// The worked example's image after the run: 199 and 1 are 200, which is 00 02.
pub fn worked_after() -> Vec<u8> {
    let mut memory = worked_memory();
    memory[0xC000..0xC002].copy_from_slice(&[0x00, 0x02]);
    image(&WORKED_HEAD_AFTER, &memory)
}

/// The image of a unit that does not adjust the decimal byte: 99 and 01 are 9A without a carry, and
/// so the upper byte, which is left in A, stays 01.
pub fn with_a_letter() -> Vec<u8> {
    let mut memory = worked_memory();
    memory[0xC000..0xC002].copy_from_slice(&[0x9A, 0x01]);
    image(&with(&WORKED_HEAD_AFTER, 5, 0x01), &memory)
}

/// A file with one byte changed.
pub fn with(bytes: &[u8], at: usize, byte: u8) -> Vec<u8> {
    let mut bytes = bytes.to_vec();
    bytes[at] = byte;
    bytes
}

pub fn image(head: &[u8], memory: &[u8]) -> Vec<u8> {
    [head, memory].concat()
}

/// Says that a test could not be made here. The words are written past the test harness, which would
/// keep them to itself.
pub fn not_possible(test: &str, why: &str) {
    let _ = writeln!(io::stderr(), "not possible here: {test}: {why}");
}

/// The examples of a page, each line behind a `$` with what it prints, say what stands there. How
/// many of them there were.
#[track_caller]
pub fn holds(page: &str, bench: &Bench) -> usize {
    let (mut expected, mut said, mut calls) = (String::new(), String::new(), 0);
    let shown = page.lines().filter_map(|line| line.strip_prefix("    "));
    for line in shown.skip_while(|line| !line.starts_with("$ ")) {
        expected.push_str(&format!("{line}\n"));
        if let Some(call) = line.strip_prefix("$ ") {
            let call = call.replace("trnadulek-tool", "\"$TOOL\"");
            let answer = bench.shell(&format!("{call} 2>&1"));
            said.push_str(&format!("{line}\n{}", answer.out));
            calls += 1;
        }
    }
    assert_eq!(said, expected);
    calls
}

/// The two numbers of "ran N cycles in M steps".
pub fn counts(text: &str) -> (u64, u64) {
    let words: Vec<_> = text.split_whitespace().collect();
    let number = |at: usize| words[at].replace(',', "").parse().unwrap();
    (number(1), number(4))
}
