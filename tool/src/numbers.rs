//! Addresses, lengths and cycles as they are typed.

use std::ffi::OsStr;
use std::ops::{Range, RangeInclusive};

use trnadulek::MEMORY_SIZE;

use crate::trouble::Trouble;
use crate::words;

/// One to four hexadecimal digits, after $ or 0x or nothing.
fn word(text: &str) -> Option<u16> {
    let digits = text
        .strip_prefix('$')
        .or_else(|| text.strip_prefix("0x"))
        .unwrap_or(text);
    let sound = digits.len() <= 4 && digits.bytes().all(|byte| byte.is_ascii_hexdigit());
    u16::from_str_radix(digits, 16).ok().filter(|_| sound)
}

/// The value of an option that takes such digits.
pub fn word_for(option: &str, value: &OsStr) -> Result<u16, Trouble> {
    let wrong = || Trouble::wrong(option, value, "up to four hexadecimal digits");
    word(value.to_str().unwrap_or_default()).ok_or_else(wrong)
}

/// Addresses from one to another, both of them in it; or one address alone.
pub fn range(option: &str, value: &OsStr) -> Result<Range<usize>, Trouble> {
    let text = value.to_str().unwrap_or_default();
    let (from, to) = text.split_once("..").unwrap_or((text, text));
    match (word(from), word(to)) {
        (Some(from), Some(to)) if from <= to => Ok(usize::from(from)..usize::from(to) + 1),
        _ => Err(Trouble::wrong(
            option,
            value,
            "ADDRESS..ADDRESS in hexadecimal digits, the lower one first",
        )),
    }
}

/// As many bytes from an address on as a length says. None passes $FFFF.
pub fn field(option: &str, address: &OsStr, length: &OsStr) -> Result<Range<usize>, Trouble> {
    let from = usize::from(word_for(option, address)?);
    let room = MEMORY_SIZE - from;
    match decimal(length).map(usize::try_from) {
        Some(Ok(length)) if (1..=room).contains(&length) => Ok(from..from + length),
        _ => {
            let most = words::grouped(room as u64);
            let wanted = format!("a number of bytes, from ${from:04X} on 1 to {most}");
            Err(Trouble::wrong(option, length, &wanted))
        }
    }
}

pub fn cycles(value: &OsStr) -> Result<u64, Trouble> {
    decimal(value).ok_or_else(|| {
        let wanted = format!("a number in decimal digits, at most {}", u64::MAX);
        Trouble::wrong("the cycles", value, &wanted)
    })
}

/// The value of an option that takes a number of things.
pub fn count(option: &str, value: &OsStr, wanted: RangeInclusive<usize>) -> Result<usize, Trouble> {
    let found = decimal(value).and_then(|number| usize::try_from(number).ok());
    found
        .filter(|number| wanted.contains(number))
        .ok_or_else(|| {
            let (least, most) = (wanted.start(), words::grouped(*wanted.end() as u64));
            Trouble::wrong(
                option,
                value,
                &format!("a number in decimal digits, {least} to {most}"),
            )
        })
}

fn decimal(value: &OsStr) -> Option<u64> {
    let text = value.to_str()?;
    let sound = text.bytes().all(|byte| byte.is_ascii_digit());
    text.parse().ok().filter(|_| sound)
}
