//! A patch comes to the bench as text, and goes into the memory of a unit.
//!
//! The routine that it replaces is listed, the text is assembled over it and over nothing else, and
//! what is there then is listed and run. A line at fault is shown, and leaves the memory as it was.

use std::error::Error;
use std::ops::Range;
use trnadulek::{assemble, listing, run, Cpu, Edition, MEMORY_SIZE};

/// Sets how many lives a game starts with.
#[rustfmt::skip]
const ROUTINE: [u8; 5] = [
    0x3E, 0x03, // 0160 LD A,$03
    0xE0, 0x80, // 0162 LDH [$FF80],A
    0xC9,       // 0164 RET
];
const AT: u16 = 0x0160;
const PLACE: Range<usize> = 0x0160..0x0165;
const LIVES: usize = 0xFF80;

/// Lists the routine, as the site manuals spell.
fn show(when: &str, memory: &[u8]) {
    print!("{when}:\n{}", listing(&memory[PLACE], AT, Edition::Old));
}

/// Assembles a text over the routine. Only its bytes are lent, so nothing past them can change.
fn patch(memory: &mut [u8], text: &str) {
    match assemble(text.as_bytes(), AT, &mut memory[PLACE]) {
        Ok(length) => println!("patched {length} bytes"),
        Err(fault) => {
            let (line, refusal) = (fault.line, fault.refusal);
            let number = refusal.number();
            println!("line {line}: refused with {number}: {refusal}");
            println!("  {}", text.lines().nth(line - 1).unwrap_or_default());
        }
    }
}

fn main() -> Result<(), Box<dyn Error>> {
    let mut memory = vec![0; MEMORY_SIZE];
    memory[PLACE].copy_from_slice(&ROUTINE);
    show("before", &memory);
    patch(&mut memory, "LD A,$07\nldio [$FF80],a\nRET\n");
    patch(&mut memory, "LD A,300\nLDIO [$FF80],A\nRET\n");
    patch(&mut memory, "LD A,$07\nLDIO [$FF80],A\nNOP\nRET\n");
    show("still", &memory);
    patch(&mut memory, "LD A,3+4\nLDIO [$FF80],A\nRET\n");
    show("after", &memory);

    // The routine is run as a CALL would, until it has returned.
    let cpu = Cpu {
        sp: 0xDFFE,
        pc: AT,
        ..Cpu::default()
    };
    run(cpu, &mut memory, 9)?;
    println!("lives: {}", memory[LIVES]);
    Ok(())
}
