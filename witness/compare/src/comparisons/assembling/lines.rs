//! Lines that are changed a little, names and operands that do not belong together, letters
//! and words at random, and texts with several faults.

use super::forms::spellings;
use super::{check, given, nested, ADDRESS};
use crate::context::{Context, Outcome};
use crate::paper::{LINE, NESTING, RANGE};
use std::collections::BTreeSet;

pub fn lines(context: &mut Context) -> Outcome {
    for line in spellings().into_keys() {
        changed(context, &line)?;
    }
    every_byte(context)?;
    exchanged_operands(context)?;
    words(context)?;
    texts(context)?;
    random_texts(context)
}

/// What is put in the place of a character, and before it: those that lines have, and some
/// that none has.
const LETTERS: &[u8] = b"ABCDEHILNPSZ019$%()[],+- \t\r\n;:*x\0\x7F\x80\xFF";

/// Each character left out, doubled, exchanged with the next, made small, and with another
/// in its place or before it.
fn changed(context: &mut Context, line: &str) -> Outcome {
    let line = line.as_bytes();
    for at in 0..=line.len() {
        let (before, rest) = line.split_at(at);
        for letter in LETTERS {
            ended(context, &[before, &[*letter], rest])?;
        }
        let (letter, after) = match rest.split_first() {
            Some(split) => split,
            None => break,
        };
        ended(context, &[before, after])?;
        ended(context, &[before, &[*letter], rest])?;
        ended(context, &[before, &[letter.to_ascii_lowercase()], after])?;
        for other in LETTERS {
            ended(context, &[before, &[*other], after])?;
        }
        if let Some((next, after)) = after.split_first() {
            ended(context, &[before, &[*next, *letter], after])?;
        }
    }
    ended(context, &[&line.to_ascii_lowercase()])?;
    check(context, line)?;
    check(context, &[line, b"\n\n"].concat())?;
    check(context, &[b"\n", line, b"\n"].concat())?;
    check(context, &[line, b"\n", line, b"\n"].concat())?;
    check(context, &[line, b"\n", line].concat())
}

/// A line of these pieces, with its newline.
fn ended(context: &mut Context, pieces: &[&[u8]]) -> Outcome {
    check(context, &[&pieces.concat(), &b"\n"[..]].concat())
}

/// Every byte in every place of some lines, and before and after them.
fn every_byte(context: &mut Context) -> Outcome {
    for line in [
        &b"NOP"[..],
        b"LD A,(-$1F+9)",
        b"LDH [$FF05],A",
        b"LD HL,SP+-$05",
        b"BIT 3,[HL]",
    ] {
        for byte in 0..=255 {
            for at in 0..=line.len() {
                let (before, rest) = line.split_at(at);
                ended(context, &[before, &[byte], rest])?;
                if let Some((_, after)) = rest.split_first() {
                    ended(context, &[before, &[byte], after])?;
                }
            }
        }
    }
    Ok(())
}

/// Names that other assemblers have, and what else might be taken for one.
const OTHER_NAMES: [&str; 12] = [
    "", "LDHL", "LDIR", "IN", "OUT", "EX", "NEG", "DW", "ORG", "CB", "A", "SP",
];

/// Operands that other assemblers have, and constants that stand for all of their kind.
#[rustfmt::skip] // As many in a line as fit.
const OTHER_OPERANDS: [&str; 25] = [
    "AF", "IX", "PC", "F", "M", "[SP]", "[AF]", "[A]", "[BC+1]", "[HL+]", "[HL-]", "(HL)", "(C)", "!Z", "PO",
    "SP+B", "SP-5", "SP", "[SP+5]", "[$FF00+C]", "[5]", "5", "$08", "$0186", "$FF34",
];

/// Every name with every operand and every pair of operands that some spelling has.
fn exchanged_operands(context: &mut Context) -> Outcome {
    let (mut names, mut operands) = (BTreeSet::new(), BTreeSet::new());
    for line in spellings().into_keys() {
        let (name, rest) = line.split_once(' ').unwrap_or((&line, ""));
        names.insert(name.to_string());
        operands.extend(rest.split(',').map(String::from));
    }
    operands.retain(|operand| !operand.starts_with(|letter: char| "$01234567".contains(letter)));
    names.extend(OTHER_NAMES.map(String::from));
    operands.extend(OTHER_OPERANDS.map(String::from));
    for name in &names {
        check(context, format!("{name}\n").as_bytes())?;
        for operand in &operands {
            check(context, format!("{name} {operand}\n").as_bytes())?;
            for other in &operands {
                check(context, format!("{name} {operand},{other}\n").as_bytes())?;
            }
        }
    }
    Ok(())
}

/// What lines are made of, and some words that are in none.
#[rustfmt::skip] // As many in a line as fit.
const WORDS: [&str; 52] = [
    "LD", "LDH", "LDIO", "LDI", "LDD", "ADD", "SUB", "CP", "INC", "BIT", "JP", "JR", "CALL", "RET", "RST", "PUSH",
    "DB", "NOP", "STOP", "A", "B", "C", "HL", "SP", "AF", "BC", "NZ", "HLI", " ", " ", " ", ",", ",", "[", "]",
    "[HL]", "(", ")", "+", "-", "$", "$FF", "0", "5", "8", "56", "255", "65535", "\n", "\n", "\r", "a",
];

const RANDOM_LINES: usize = 30_000;

fn words(context: &mut Context) -> Outcome {
    for _ in 0..RANDOM_LINES {
        let count = 1 + context.rng.below(10);
        let words: String = (0..count).map(|_| context.rng.pick(&WORDS)).collect();
        check(context, format!("{words}\n").as_bytes())?;
    }
    Ok(())
}

/// A line with its newline, and its bytes or its code.
type Known = (String, Result<&'static [u8], u8>);

/// Lines that are right, of one to three bytes, and at fault in each way and in several.
fn known() -> Vec<Known> {
    let line = |text: &str| format!("{text}\n");
    let deep = |inside: &str| format!("DB {}\n", nested(17, inside));
    vec![
        (line("NOP"), Ok(&[0x00])),
        (line("LDIO A,[-1]"), Ok(&[0xF0, 0xFF])),
        (line("LD BC,$1234"), Ok(&[0x01, 0x34, 0x12])),
        (line("nop"), Err(LINE)),
        (line(""), Err(LINE)),
        (line("NOP\r"), Err(LINE)),
        (line("DB 256,65536"), Err(LINE)),
        (deep("5+"), Err(LINE)),
        (deep("5"), Err(NESTING)),
        (deep("65536"), Err(NESTING)),
        (line("DB 256"), Err(RANGE)),
        (line("DB 65536-65536"), Err(RANGE)),
        (line("LDH A,[$80]"), Err(RANGE)),
    ]
}

/// Every text of up to three of these lines, the last also without its newline.
fn texts(context: &mut Context) -> Outcome {
    let known = known();
    given(context, b"", ADDRESS, Ok(&[]))?;
    for first in &known {
        text(context, &[first])?;
        for second in &known {
            text(context, &[first, second])?;
            for third in &known {
                text(context, &[first, second, third])?;
            }
        }
    }
    Ok(())
}

fn text(context: &mut Context, lines: &[&Known]) -> Outcome {
    let mut text: String = lines.iter().map(|(line, _)| &**line).collect();
    let mut bytes = Vec::new();
    let mut fault = None;
    for ((_, answer), number) in lines.iter().zip(1..) {
        match answer {
            Ok(taken) => bytes.extend(*taken),
            Err(code) => {
                fault = Some((*code, number));
                break;
            }
        }
    }
    let wanted = fault.map_or(Ok(&*bytes), Err);
    given(context, text.as_bytes(), ADDRESS, wanted)?;
    text.pop();
    if text.is_empty() || text.ends_with('\n') {
        // The last line was empty, and is none now.
        return check(context, text.as_bytes());
    }
    let last = lines.len();
    let wanted = match fault {
        Some((code, line)) if line < last => (code, line),
        _ => (LINE, last),
    };
    given(context, text.as_bytes(), ADDRESS, Err(wanted))
}

const RANDOM_TEXTS: usize = 6_000;

/// Texts of right lines, some with one of the others in them.
fn random_texts(context: &mut Context) -> Outcome {
    let known = known();
    let right: Vec<&Known> = known.iter().filter(|(_, answer)| answer.is_ok()).collect();
    let all: Vec<&Known> = known.iter().collect();
    for _ in 0..RANDOM_TEXTS {
        let rng = &mut context.rng;
        let count = rng.below(30);
        let mut lines: Vec<&Known> = (0..count).map(|_| rng.pick(&right)).collect();
        for _ in 0..rng.below(3) {
            let at = rng.below(lines.len() as u32 + 1) as usize;
            lines.insert(at, rng.pick(&all));
        }
        if lines.is_empty() {
            continue;
        }
        text(context, &lines)?;
    }
    Ok(())
}
