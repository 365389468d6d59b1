//! The program of document 01: bytes in, two lines out.

use crate::memory::SIZE;
use crate::refusal;
use crate::run::{run, Ran};
use crate::saved::{load_head, HEAD_SIZE};

/// Bytes of input: budget, head, memory.
pub const INPUT_SIZE: usize = 4 + HEAD_SIZE + SIZE;

/// The first line of the output.
pub const HEADER: &str = "code spent steps AF BC DE HL SP PC ime mode";

/// What the program prints for an input.
pub fn program(input: &[u8]) -> String {
    let line = match answer(input) {
        Ok(ran) => full_line(&ran),
        Err(code) => code.to_string(),
    };
    format!("{HEADER}\n{line}\n")
}

/// The run that the input asks for, or the code that is printed alone.
fn answer(input: &[u8]) -> Result<Ran, u8> {
    if input.len() != INPUT_SIZE {
        return Err(refusal::LENGTH);
    }
    let (budget, rest) = input.split_at(4);
    let (head, content) = rest.split_at(HEAD_SIZE);
    let budget = u32::from_be_bytes([budget[0], budget[1], budget[2], budget[3]]);
    let (code, state) = load_head(head);
    if code != refusal::DONE {
        return Err(code);
    }
    let mut memory = content.to_vec();
    let ran = run(state, &mut memory, budget);
    match ran.code {
        refusal::MEMORY_LENGTH | refusal::FLAG_BITS | refusal::BUDGET => Err(ran.code),
        _ => Ok(ran),
    }
}

fn full_line(ran: &Ran) -> String {
    format!("{} {} {} {}", ran.code, ran.spent, ran.steps, ran.state)
}
