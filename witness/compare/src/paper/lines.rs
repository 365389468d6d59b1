//! What document 02's M-103 fixes of lines outright, taken from no assembler: which values a
//! constant may have and what they become, which codes a line's characters leave open, and
//! what a text is by its lines and the room.

use super::{DONE, LINE, NESTING, RANGE, ROOM};

/// The most round brackets that may be open at once.
pub const DEEPEST: usize = 16;

/// What a constant is to its instruction.
#[derive(Clone, Copy, PartialEq, Eq, PartialOrd, Ord, Debug)]
pub enum Kind {
    /// n8.
    Byte,
    /// n16.
    Word,
    /// e8.
    Offset,
    /// JR's n16.
    Target,
    /// LDH's n16.
    Port,
    /// u3, which goes into the byte after $CB.
    Bit,
    /// vec, which goes into the opcode.
    Vector,
    /// DB's n8, which no opcode comes before.
    Data,
}

/// The bytes of an instruction whose constant has a value, at an address, or the code.
pub fn bytes(kind: Kind, opcode: u8, value: i128, address: u16) -> Result<Vec<u8>, u8> {
    let range = match kind {
        Kind::Byte | Kind::Data => -128..=255,
        Kind::Word | Kind::Target | Kind::Port => -32_768..=65_535,
        Kind::Offset => -128..=127,
        Kind::Bit => 0..=7,
        Kind::Vector => 0..=56,
    };
    if !range.contains(&value) {
        return Err(RANGE);
    }
    let low = value.rem_euclid(256) as u8;
    let word = value.rem_euclid(65_536);
    match kind {
        Kind::Data => Ok(vec![low]),
        Kind::Byte | Kind::Offset => Ok(vec![opcode, low]),
        Kind::Word => Ok(vec![opcode, low, (word / 256) as u8]),
        Kind::Port if word >= 0xFF00 => Ok(vec![opcode, low]),
        Kind::Bit => Ok(vec![0xCB, opcode + 8 * low]),
        Kind::Vector if value % 8 == 0 => Ok(vec![opcode + low]),
        Kind::Target => distance(word, address).map(|distance| vec![opcode, distance]),
        Kind::Port | Kind::Vector => Err(RANGE),
    }
}

/// How far a target is from behind JR's two bytes: up to 127 ahead, or up to 128 back.
fn distance(target: i128, address: u16) -> Result<u8, u8> {
    let ahead = (target - i128::from(address) - 2).rem_euclid(65_536);
    match ahead {
        0..=127 | 65_408..=65_535 => Ok((ahead % 256) as u8),
        _ => Err(RANGE),
    }
}

/// The codes that a line may have by its characters alone, the room aside: whether it ends in a
/// newline, the characters that no line has, its brackets, the numbers in it.
pub fn open_codes(line: &[u8]) -> &'static [u8] {
    let (line, ends) = match line.split_last() {
        Some((b'\n', line)) => (line, true),
        _ => (line, false),
    };
    let deepest = match deepest(line) {
        Some(deepest) if ends && line.iter().all(|letter| is_known(*letter)) => deepest,
        _ => return &[LINE],
    };
    if deepest > DEEPEST {
        &[LINE, NESTING]
    } else if numbers(line).any(is_too_large) {
        &[LINE, RANGE]
    } else if numbers(line).next().is_none() {
        &[DONE, LINE]
    } else {
        &[DONE, LINE, RANGE]
    }
}

fn is_known(letter: u8) -> bool {
    letter.is_ascii_uppercase() || letter.is_ascii_digit() || b" $,+-[]()".contains(&letter)
}

/// The most round brackets that are open at once, if each has its other half.
fn deepest(line: &[u8]) -> Option<usize> {
    let (mut open, mut deepest) = (0_usize, 0);
    for letter in line {
        match letter {
            b'(' => open += 1,
            b')' => open = open.checked_sub(1)?,
            _ => {}
        }
        deepest = deepest.max(open);
    }
    (open == 0).then_some(deepest)
}

/// The numbers of a line, each with whether it stands after a $, as their digits.
fn numbers(line: &[u8]) -> impl Iterator<Item = (bool, &[u8])> {
    let mut at = 0;
    std::iter::from_fn(move || {
        at += line[at..]
            .iter()
            .position(|letter| *letter == b'$' || letter.is_ascii_digit())?;
        let hexadecimal = line[at] == b'$';
        let start = at + usize::from(hexadecimal);
        let is_digit = |letter: &&u8| match hexadecimal {
            true => matches!(letter, b'0'..=b'9' | b'A'..=b'F'),
            false => letter.is_ascii_digit(),
        };
        at = start + line[start..].iter().take_while(is_digit).count();
        Some((hexadecimal, &line[start..at]))
    })
}

/// Whether a number is above 65,535, by how many digits it has and by their order.
fn is_too_large((hexadecimal, digits): (bool, &[u8])) -> bool {
    let zeros = digits.iter().take_while(|digit| **digit == b'0').count();
    let largest: &[u8] = if hexadecimal { b"FFFF" } else { b"65535" };
    let digits = &digits[zeros..];
    (digits.len(), digits) > (largest.len(), largest)
}

/// What is due for a text: code, line and bytes.
#[derive(Clone, PartialEq, Eq, Debug)]
pub struct Due {
    pub code: u8,
    pub line: usize,
    pub bytes: Vec<u8>,
}

/// What is due where the lines are these, up to the first that is at fault by itself, and
/// there is so much room: the first line that is at fault or has no room is answered.
pub fn due(lines: &[Result<Vec<u8>, u8>], room: usize) -> Due {
    let mut bytes = Vec::new();
    for (line, number) in lines.iter().zip(1..) {
        let code = match line {
            Ok(taken) if bytes.len() + taken.len() <= room => {
                bytes.extend(taken);
                continue;
            }
            Ok(_) => ROOM,
            Err(code) => *code,
        };
        return Due {
            code,
            line: number,
            bytes: Vec::new(),
        };
    }
    Due {
        code: DONE,
        line: 0,
        bytes,
    }
}

#[cfg(test)]
mod tests {
    use super::*;

    #[test]
    fn values_at_the_limits() {
        let byte = |value| bytes(Kind::Byte, 0x3E, value, 0);
        assert_eq!(byte(-128), Ok(vec![0x3E, 0x80]));
        assert_eq!(byte(255), Ok(vec![0x3E, 0xFF]));
        assert_eq!((byte(-129), byte(256)), (Err(RANGE), Err(RANGE)));
        let word = |value| bytes(Kind::Word, 0x01, value, 0);
        assert_eq!(word(-32_768), Ok(vec![0x01, 0x00, 0x80]));
        assert_eq!(word(65_535), Ok(vec![0x01, 0xFF, 0xFF]));
        assert_eq!((word(-32_769), word(65_536)), (Err(RANGE), Err(RANGE)));
        let port = |value| bytes(Kind::Port, 0xE0, value, 0);
        assert_eq!(port(-128), Ok(vec![0xE0, 0x80]));
        assert_eq!(port(0xFF00), Ok(vec![0xE0, 0x00]));
        assert_eq!((port(0x80), port(0xFEFF)), (Err(RANGE), Err(RANGE)));
        let target = |address, value| bytes(Kind::Target, 0x18, value, address);
        assert_eq!(target(0, 0xFF82), Ok(vec![0x18, 0x80]));
        assert_eq!(target(0, -126), Ok(vec![0x18, 0x80]));
        assert_eq!(target(0xFFFE, 127), Ok(vec![0x18, 0x7F]));
        assert_eq!((target(0, -127), target(0, 130)), (Err(RANGE), Err(RANGE)));
        assert_eq!(bytes(Kind::Vector, 0xC7, 56, 0), Ok(vec![0xFF]));
        assert_eq!(bytes(Kind::Vector, 0xC7, 7, 0), Err(RANGE));
        assert_eq!(bytes(Kind::Bit, 0x46, 7, 0), Ok(vec![0xCB, 0x7E]));
        assert_eq!(bytes(Kind::Bit, 0x46, 8, 0), Err(RANGE));
    }

    #[test]
    fn what_the_characters_leave_open() {
        for (line, codes) in [
            ("NOP\n", &[DONE, LINE][..]),
            ("NOP", &[LINE]),
            ("", &[LINE]),
            ("nop\n", &[LINE]),
            ("DB 5;\n", &[LINE]),
            ("DB (5\n", &[LINE]),
            ("DB )5(\n", &[LINE]),
            ("DB 5\n", &[DONE, LINE, RANGE]),
            ("DB 65535\n", &[DONE, LINE, RANGE]),
            ("DB 65536-65536\n", &[LINE, RANGE]),
            ("DB 00065535\n", &[DONE, LINE, RANGE]),
            ("DB 5-100000\n", &[LINE, RANGE]),
            ("DB $0FFFF\n", &[DONE, LINE, RANGE]),
            ("DB $10000\n", &[LINE, RANGE]),
        ] {
            assert_eq!(open_codes(line.as_bytes()), codes, "{line:?}");
        }
        let nested = |depth| format!("DB {}5{}\n", "(".repeat(depth), ")".repeat(depth));
        assert_eq!(open_codes(nested(16).as_bytes()), [DONE, LINE, RANGE]);
        assert_eq!(open_codes(nested(17).as_bytes()), [LINE, NESTING]);
    }

    #[test]
    fn the_first_line_at_fault_is_due() {
        let lines = [Ok(vec![1]), Ok(vec![2, 3]), Err(LINE)];
        let answer = |lines: &[Result<Vec<u8>, u8>], room| {
            let due = due(lines, room);
            (due.code, due.line, due.bytes.len())
        };
        assert_eq!(answer(&lines, 0), (ROOM, 1, 0));
        assert_eq!(answer(&lines, 2), (ROOM, 2, 0));
        assert_eq!(answer(&lines, 3), (LINE, 3, 0));
        assert_eq!(answer(&lines[..2], 3), (DONE, 0, 3));
        assert_eq!(answer(&[], 0), (DONE, 0, 0));
    }
}
