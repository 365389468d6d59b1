use std::ops::Range;

use trnadulek::Cpu;

use super::Command;
use crate::arguments::Given;
use crate::report::{Report, Status};
use crate::saved::Saved;
use crate::score::Score;
use crate::trouble::Trouble;
use crate::{numbers, words};

pub const COMMAND: Command = Command {
    name: "show",
    form: "FILE [--bytes ADDRESS..ADDRESS | --score ADDRESS LENGTH]..",
    about: "\
registers, flags, IME and mode in words; of an image also IE, IF, what is pending,
the byte at PC and the word at SP
--bytes  these bytes instead, in hexadecimal, both addresses among them
--score  instead the number of LENGTH bytes, two decimal digits each, least byte first",
    options: &["--bytes", "--score"],
    writes: false,
    carry_out,
};

const IE: usize = 0xFFFF;
const IF: usize = 0xFF0F;

fn carry_out(mut given: Given) -> Result<Report, Trouble> {
    let [file] = COMMAND.plain(&mut given)?;
    let parts: Vec<Part> = given
        .options()
        .map(|(option, values)| match option {
            "--bytes" => numbers::range(option, &values[0]).map(Part::Bytes),
            _ => Score::from_values(values).map(Part::Score),
        })
        .collect::<Result<_, _>>()?;
    let saved = Saved::read(&file)?;
    if parts.is_empty() {
        return Ok(Report::answer(whole(&saved), Status::Done));
    }
    if !saved.is_image() {
        return Err(Trouble::said(&file, "a head, and a head has no memory"));
    }
    let text = parts
        .iter()
        .map(|part| part.shown(saved.memory()))
        .collect();
    Ok(Report::answer(text, Status::Done))
}

/// A part of the memory.
enum Part {
    Bytes(Range<usize>),
    Score(Score),
}

impl Part {
    fn shown(&self, memory: &[u8]) -> String {
        match self {
            Part::Bytes(range) => bytes(memory, range.clone()),
            Part::Score(score) => format!("{}: {}\n", score.place(), score.value(memory)),
        }
    }
}

/// Sixteen a line.
fn bytes(memory: &[u8], range: Range<usize>) -> String {
    const LINE: usize = 16;
    let starts = range.clone().step_by(LINE);
    starts
        .map(|from| {
            let to = range.end.min(from + LINE);
            format!("${from:04X}  {}\n", words::bytes(&memory[from..to]))
        })
        .collect()
}

fn whole(saved: &Saved) -> String {
    let mut text = words::row(saved.kind(), &saved.input.name());
    for (name, value) in words::registers(saved.cpu) {
        text += &words::row(name, &value);
    }
    if saved.is_image() {
        text += &in_memory(saved.cpu, saved.memory());
    }
    text
}

/// What the memory holds at the places that the processor looks at next.
fn in_memory(cpu: Cpu, memory: &[u8]) -> String {
    let at = |address: u16| memory[usize::from(address)];
    let stacked = u16::from_le_bytes([at(cpu.sp), at(cpu.sp.wrapping_add(1))]);
    let byte = |value: u8| format!("{value:02X}");
    [
        ("IE", byte(memory[IE])),
        ("IF", byte(memory[IF])),
        ("pending", byte(memory[IE] & memory[IF] & 0x1F)),
        ("at PC", byte(at(cpu.pc))),
        ("at SP", words::word(stacked)),
    ]
    .iter()
    .map(|(name, value)| words::row(name, value))
    .collect()
}
