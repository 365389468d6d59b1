//! How things are said.

use std::ffi::OsStr;
use std::fs::FileType;
use std::io;
use std::os::unix::fs::FileTypeExt;
use std::path::Path;

use trnadulek::Cpu;

/// A line of a table: a name and a value.
pub fn row(name: &str, value: &str) -> String {
    format!("{name:7}  {value}\n")
}

/// The registers, in the order of `show`.
pub fn registers(cpu: Cpu) -> [(&'static str, String); 9] {
    [
        ("AF", word(cpu.af())),
        ("BC", word(cpu.bc())),
        ("DE", word(cpu.de())),
        ("HL", word(cpu.hl())),
        ("SP", word(cpu.sp)),
        ("PC", word(cpu.pc)),
        ("flags", flags(cpu.f)),
        ("IME", cpu.ime.to_string()),
        ("mode", cpu.mode.to_string()),
    ]
}

pub fn word(value: u16) -> String {
    format!("{value:04X}")
}

fn flags(f: u8) -> String {
    [(0x80, 'Z'), (0x40, 'N'), (0x20, 'H'), (0x10, 'C')]
        .map(|(bit, letter)| if f & bit == 0 { '-' } else { letter })
        .iter()
        .collect()
}

/// A file's name on one line, whatever is in it.
pub fn name(path: &Path) -> String {
    if path == Path::new("-") {
        return "standard input".to_string();
    }
    typed(path.as_os_str())
}

/// What was typed, on one line, whatever is in it.
pub fn typed(word: &OsStr) -> String {
    let word = word.to_string_lossy();
    word.replace(char::is_control, "?")
}

/// Why a file could not be read or written. The numbers are Linux's.
pub fn file_error(error: &io::Error) -> String {
    let words = match error.raw_os_error() {
        Some(2) => "there is no such file or folder",
        Some(13) => "this user has no permission for that",
        Some(20) => "a part of its path is no folder",
        Some(28) => "there is no room left on the disk",
        Some(30) => "the disk can only be read",
        Some(40) => "a loop of links, which leads to no file",
        _ => return error.to_string(),
    };
    words.to_string()
}

/// What something is that is no ordinary file.
pub fn kind(found: FileType) -> &'static str {
    if found.is_dir() {
        "a folder"
    } else if found.is_fifo() {
        "a pipe"
    } else if found.is_socket() {
        "a socket"
    } else {
        "a device"
    }
}

/// Digits in threes.
pub fn grouped(number: u64) -> String {
    let digits = number.to_string();
    let mut text = String::new();
    for (at, digit) in digits.chars().enumerate() {
        if at > 0 && (digits.len() - at) % 3 == 0 {
            text.push(',');
        }
        text.push(digit);
    }
    text
}

/// A number of things, the word for one taking an s for all others.
pub fn count(number: u64, thing: &str) -> String {
    let plural = if number == 1 { "" } else { "s" };
    format!("{} {thing}{plural}", grouped(number))
}

/// Where bytes of the memory lie: from the first to before the last.
pub fn place(from: usize, to: usize) -> String {
    match to - from {
        1 => format!("${from:04X}"),
        length => {
            let bytes = count(length as u64, "byte");
            format!("${from:04X}-${:04X}, {bytes}", to - 1)
        }
    }
}

/// Bytes in hexadecimal.
pub fn bytes(bytes: &[u8]) -> String {
    let shown: Vec<String> = bytes.iter().map(|byte| format!("{byte:02X}")).collect();
    shown.join(" ")
}
