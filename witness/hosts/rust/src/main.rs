//! Document 01's program over the Rust wrapper: a budget, a head and a memory
//! from standard input, two lines to standard output. It is held against the
//! second program, so that the library is judged as a Rust host links it.

use std::io::Read;
use trnadulek::{load, run, Ended, Ran, Refusal, HEAD_SIZE, MEMORY_SIZE};

const LEAD: usize = 4 + HEAD_SIZE;

fn main() -> std::io::Result<()> {
    let mut input = Vec::new();
    let longest = (LEAD + MEMORY_SIZE + 1) as u64;
    std::io::stdin().take(longest).read_to_end(&mut input)?;
    println!("code spent steps AF BC DE HL SP PC ime mode");
    println!("{}", answer(&mut input));
    Ok(())
}

fn answer(input: &mut [u8]) -> String {
    if input.len() != LEAD + MEMORY_SIZE {
        return "6".to_string();
    }
    let (lead, memory) = input.split_at_mut(LEAD);
    let budget = u32::from_be_bytes([lead[0], lead[1], lead[2], lead[3]]);
    let cpu = match load(&lead[4..]) {
        Ok(cpu) => cpu,
        Err(refusal) => return refusal.number().to_string(),
    };
    match run(cpu, memory, budget) {
        Ok(ran) => line(0, ran),
        Err(Ended { refusal, ran }) => ended(refusal, ran),
    }
}

/// A run that could not begin has its number alone.
fn ended(refusal: Refusal, ran: Ran) -> String {
    match refusal.number() {
        code @ (1 | 2 | 5) => code.to_string(),
        code => line(code, ran),
    }
}

fn line(code: u8, ran: Ran) -> String {
    let Ran { cpu, spent, steps } = ran;
    let pair = |high: u8, low: u8| u16::from_be_bytes([high, low]);
    let words = [
        pair(cpu.a, cpu.f),
        pair(cpu.b, cpu.c),
        pair(cpu.d, cpu.e),
        pair(cpu.h, cpu.l),
        cpu.sp,
        cpu.pc,
    ];
    let words: Vec<String> = words.iter().map(|word| format!("{word:04X}")).collect();
    let (ime, mode) = (cpu.ime as u8, cpu.mode as u8);
    format!("{code} {spent} {steps} {} {ime} {mode}", words.join(" "))
}
