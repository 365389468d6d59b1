//! The commands of the binary.

mod failure;
mod files;
mod numbers;

use failure::{refused, usage, Failure};
use files::{new_file, read_all_input, read_at_most, read_input, say, say_bytes};
use second::{State, HEAD_SIZE, IMAGE_SIZE, INPUT_SIZE, MEMORY_SIZE};
use std::ffi::{OsStr, OsString};

const USAGE: &str = "usage: second program | table | step IMAGE OUT | run IMAGE BUDGET OUT \
                     | load FILE | save OUT AF BC DE HL SP PC IME MODE [MEMORY] \
                     | list FIRST EDITION | assemble FIRST";

/// AF BC DE HL SP PC IME MODE.
const REGISTERS: usize = 8;

const STOPPED: u8 = 3;
const UNDEFINED: u8 = 4;

/// Performs what the arguments ask for.
pub fn perform(arguments: &[OsString]) -> Result<(), Failure> {
    let (name, operands) = arguments.split_first().ok_or_else(|| usage(USAGE))?;
    match (name.to_str(), operands) {
        (Some("program"), []) => program(),
        (Some("table"), []) => table(),
        (Some("step"), [image, out]) => step(image, out),
        (Some("run"), [image, budget, out]) => run(image, budget, out),
        (Some("load"), [file]) => load(file),
        (Some("save"), [out, registers @ ..]) => save(out, registers),
        (Some("list"), [first, edition]) => list(first, edition),
        (Some("assemble"), [first]) => assemble(first),
        _ => Err(usage(USAGE)),
    }
}

fn program() -> Result<(), Failure> {
    let input = read_input(INPUT_SIZE)?;
    say(&second::program(&input))
}

fn table() -> Result<(), Failure> {
    let lines: String = (0..512)
        .map(|row| {
            let length = second::length(row);
            let untaken = second::untaken_cycles(row);
            format!("{row} {length} {untaken}\n")
        })
        .collect();
    say(&lines)
}

fn step(image: &OsStr, out: &OsStr) -> Result<(), Failure> {
    let (state, mut memory) = open(image)?;
    let stepped = second::step(state, &mut memory);
    refused(stepped.code)?;
    keep_image(out, stepped.state, &memory)?;
    say(&format!("{} {}\n", stepped.code, stepped.cycles))
}

/// A run that a refused step ends is kept up to that step, and says so.
fn run(image: &OsStr, budget: &OsStr, out: &OsStr) -> Result<(), Failure> {
    let budget = numbers::decimal("BUDGET", budget)?;
    let (state, mut memory) = open(image)?;
    let ran = second::run(state, &mut memory, budget);
    if !matches!(ran.code, STOPPED | UNDEFINED) {
        refused(ran.code)?;
    }
    keep_image(out, ran.state, &memory)?;
    say(&format!("{} {} {}\n", ran.code, ran.spent, ran.steps))?;
    refused(ran.code)
}

/// A file of 23 bytes is a head; any other is taken for an image.
fn load(file: &OsStr) -> Result<(), Failure> {
    let bytes = read_at_most(file, IMAGE_SIZE)?;
    let (code, state) = if bytes.len() == HEAD_SIZE {
        second::load_head(&bytes)
    } else {
        let (code, state, _) = second::open_image(&bytes);
        (code, state)
    };
    refused(code)?;
    say(&format!(
        "code AF BC DE HL SP PC ime mode\n{code} {state}\n"
    ))
}

fn save(out: &OsStr, operands: &[OsString]) -> Result<(), Failure> {
    if operands.len() < REGISTERS {
        return Err(usage(USAGE));
    }
    let (registers, rest) = operands.split_at(REGISTERS);
    let state = numbers::state(registers)?;
    match rest {
        [] => keep_head(out, state)?,
        [file] => keep_image(out, state, &read_at_most(file, MEMORY_SIZE)?)?,
        _ => return Err(usage(USAGE)),
    }
    say("0\n")
}

/// Lists the standard input as a part that begins at an address, in an edition.
fn list(first: &OsStr, edition: &OsStr) -> Result<(), Failure> {
    let first = numbers::word("FIRST", first)?;
    let edition = numbers::decimal("EDITION", edition)?;
    let text = second::listing(&read_all_input()?, first, edition);
    say(&text.map_err(Failure::Refusal)?)
}

/// Assembles the standard input from an address on; the bytes are printed as they are.
fn assemble(first: &OsStr) -> Result<(), Failure> {
    let first = numbers::word("FIRST", first)?;
    let bytes = second::assembly(&read_all_input()?, first, usize::MAX);
    say_bytes(&bytes.map_err(|fault| Failure::InLine(fault.code, fault.line))?)
}

fn open(file: &OsStr) -> Result<(State, Vec<u8>), Failure> {
    let bytes = read_at_most(file, IMAGE_SIZE)?;
    let (code, state, memory) = second::open_image(&bytes);
    refused(code)?;
    Ok((state, memory.to_vec()))
}

fn keep_head(out: &OsStr, state: State) -> Result<(), Failure> {
    let mut head = [0; HEAD_SIZE];
    refused(second::save_head(state, &mut head))?;
    new_file(out, &head)
}

fn keep_image(out: &OsStr, state: State, memory: &[u8]) -> Result<(), Failure> {
    let mut image = vec![0; IMAGE_SIZE];
    refused(second::save_image(state, memory, &mut image))?;
    new_file(out, &image)
}
