//! Numbers on the command line.

use super::failure::{usage, Failure};
use second::{Ime, Mode, State};
use std::ffi::{OsStr, OsString};

/// A number of decimal digits that fits in 32 bits.
pub fn decimal(name: &str, text: &OsStr) -> Result<u32, Failure> {
    digits(text, u8::is_ascii_digit)
        .and_then(|digits| digits.parse().ok())
        .ok_or_else(|| usage(&format!("{name} must be a number from 0 to 4294967295")))
}

/// The state that AF BC DE HL SP PC IME MODE name.
pub fn state(registers: &[OsString]) -> Result<State, Failure> {
    let [a, f] = word("AF", &registers[0])?.to_be_bytes();
    let [b, c] = word("BC", &registers[1])?.to_be_bytes();
    let [d, e] = word("DE", &registers[2])?.to_be_bytes();
    let [h, l] = word("HL", &registers[3])?.to_be_bytes();
    let sp = word("SP", &registers[4])?;
    let pc = word("PC", &registers[5])?;
    let ime = code("IME must be 0, 1 or 2", &registers[6], Ime::from_code)?;
    let mode = code("MODE must be 0, 1, 2 or 3", &registers[7], Mode::from_code)?;
    Ok(State {
        a,
        f,
        b,
        c,
        d,
        e,
        h,
        l,
        sp,
        pc,
        ime,
        mode,
    })
}

/// A word of hexadecimal digits, without a sign before them.
pub fn word(name: &str, text: &OsStr) -> Result<u16, Failure> {
    digits(text, u8::is_ascii_hexdigit)
        .and_then(|digits| u16::from_str_radix(digits, 16).ok())
        .ok_or_else(|| usage(&format!("{name} must be hexadecimal, from 0 to FFFF")))
}

fn code<T>(rule: &str, text: &OsStr, from_code: fn(u8) -> Option<T>) -> Result<T, Failure> {
    digits(text, u8::is_ascii_digit)
        .and_then(|digits| digits.parse().ok())
        .and_then(from_code)
        .ok_or_else(|| usage(rule))
}

/// The text if it is made of allowed characters only (no sign, no space).
fn digits(text: &OsStr, allowed: fn(&u8) -> bool) -> Option<&str> {
    text.to_str()
        .filter(|text| text.as_bytes().iter().all(allowed))
}
