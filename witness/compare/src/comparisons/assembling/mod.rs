//! Assemblies: every form with operands at the edges, constants, lines that are changed a
//! little, texts with several faults, and the way back from listings.

mod back;
mod constants;
mod forms;
mod lines;
mod operands;

pub use back::round_trips;
pub use constants::constants;
pub use lines::lines;
pub use operands::operands;

use crate::context::{Context, Failure, Outcome};
use crate::input::Input;
use crate::paper::{lines::Kind, DONE};

/// Where a text begins if nothing turns on it.
const ADDRESS: u16 = 0x0150;

/// A text whose bytes, or whose code and line, are known before any assembler is asked.
fn given(
    context: &mut Context,
    text: &[u8],
    first: u16,
    wanted: Result<&[u8], (u8, usize)>,
) -> Outcome {
    let input = Input::assemble(text.to_vec(), first);
    let assembled = second::assembly(text, first, usize::MAX);
    let given = assembled
        .as_deref()
        .map_err(|fault| (fault.code, fault.line));
    if given != wanted {
        return Err(Failure {
            what: format!(
                "{} are due, and the second program has {}",
                told(wanted),
                told(given)
            ),
            input: Some(input),
        });
    }
    context.check(input)?;
    Ok(())
}

fn told(answer: Result<&[u8], (u8, usize)>) -> String {
    match answer {
        Ok(bytes) if bytes.len() > 16 => format!("code {DONE} and {} bytes", bytes.len()),
        Ok(bytes) => format!("code {DONE} and the bytes {bytes:02X?}"),
        Err((code, line)) => format!("code {code} and line {line}"),
    }
}

/// One line, without its newline, that is known in the same way.
fn given_line(
    context: &mut Context,
    line: &str,
    first: u16,
    wanted: Result<Vec<u8>, u8>,
) -> Outcome {
    let text = format!("{line}\n");
    let wanted = wanted.as_deref().map_err(|code| (*code, 1));
    given(context, text.as_bytes(), first, wanted)
}

/// A text of which nothing is known before.
fn check(context: &mut Context, text: &[u8]) -> Outcome {
    context.check(Input::assemble(text.to_vec(), ADDRESS))?;
    Ok(())
}

/// A constant in so many round brackets.
fn nested(depth: usize, inside: &str) -> String {
    format!("{}{inside}{}", "(".repeat(depth), ")".repeat(depth))
}

/// A form of each kind, in which any value can stand.
const ONE_OF_EACH: [(&str, &str, Kind, u8); 8] = [
    ("LD A,", "", Kind::Byte, 0x3E),
    ("LD [", "],SP", Kind::Word, 0x08),
    ("LD HL,SP+", "", Kind::Offset, 0xF8),
    ("JR NZ,", "", Kind::Target, 0x20),
    ("LDIO [", "],A", Kind::Port, 0xE0),
    ("RES ", ",[HL]", Kind::Bit, 0x86),
    ("RST ", "", Kind::Vector, 0xC7),
    ("DB ", "", Kind::Data, 0),
];
