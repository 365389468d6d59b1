//! Random cases for each row of the opcode table, answered by mGBA's core.

use super::place::{empty_folder, new_file};
use super::write::{case_text, file_text, Made};
use mgba::Core;
use random::Random;
use second::{Ime, Mode, State};
use std::collections::BTreeMap;
use std::io::Write;
use std::path::Path;

const STOP: u32 = 0x10;
const FIRST_PREFIXED: u32 = 256;
const ROWS: u32 = 512;
const IF: u16 = 0xFF0F;
const IE: u16 = 0xFFFF;

/// Words at which something in the machine ends, wraps or has a meaning.
const EDGES: [u16; 10] = [
    0x0000, 0x0001, 0x0002, 0x00FF, 0x0FFF, 0x7FFF, 0xFF0F, 0xFF10, 0xFFFE, 0xFFFF,
];

/// The bytes that a case lists.
type Ram = BTreeMap<u16, u8>;

/// Makes a file for each runnable row in a new or empty folder.
pub fn make(folder: &Path, seed: u64, cases: u64, out: &mut impl Write) -> Result<(), String> {
    empty_folder(folder)?;
    let mut core = Core::new();
    let mut files = 0;
    for row in (0..ROWS).filter(|row| second::length(*row) != 0) {
        let path = folder.join(format!("{}.json", stem(row)));
        new_file(&path, &file(&mut core, row, seed, cases)?)?;
        files += 1;
    }
    writeln!(
        out,
        "made from mGBA's core: {files} files of {cases} cases, seed {seed}\n\
         10.json (STOP) has document 01's 1 cycle where mGBA's core takes 2"
    )
    .map_err(|error| format!("cannot write the answer: {error}"))
}

/// The name of a row's file without its ending.
fn stem(row: u32) -> String {
    if row < FIRST_PREFIXED {
        format!("{row:02x}")
    } else {
        format!("cb {:02x}", row - FIRST_PREFIXED)
    }
}

fn file(core: &mut Core, row: u32, seed: u64, cases: u64) -> Result<String, String> {
    let mut random = Random::new(seed, &stem(row));
    let texts: Result<Vec<_>, _> = (0..cases)
        .map(|index| {
            let name = format!("{} {index:04}", stem(row));
            Ok(case_text(&made(core, row, name, &mut random)?))
        })
        .collect();
    texts.map(|texts| file_text(&texts))
}

fn made(core: &mut Core, row: u32, name: String, random: &mut Random) -> Result<Made, String> {
    let mut before = random_state(random);
    let ram = random_ram(row, &before, random);
    if is_pending(&ram) {
        // With the switch on this would be a dispatch, and no instruction.
        before.ime = Ime::Off;
    }
    let start = memory_of(&ram);
    let mut memory = start.clone();
    let outcome = core.step(&before, &mut memory);
    if outcome.illegal {
        return Err(format!("mGBA's core knows no instruction for {name}"));
    }
    Ok(Made {
        name,
        before,
        after: outcome.state,
        final_ram: final_ram(&ram, &start, &memory),
        initial_ram: ram,
        // A house rule: see what `make` says of STOP.
        cycles: if row == STOP { 1 } else { outcome.cycles },
    })
}

fn random_state(random: &mut Random) -> State {
    let [b, c] = random_word(random).to_be_bytes();
    let [d, e] = random_word(random).to_be_bytes();
    let [h, l] = random_word(random).to_be_bytes();
    State {
        a: random.byte(),
        f: random.byte() & 0xF0,
        b,
        c,
        d,
        e,
        h,
        l,
        sp: random_word(random),
        pc: random_word(random),
        ime: random.pick(&[Ime::On, Ime::Off]),
        mode: Mode::Running,
    }
}

/// A word; one in eight lies at an edge.
fn random_word(random: &mut Random) -> u16 {
    match random.one_in(8) {
        true => random.pick(&EDGES),
        false => random.word(),
    }
}

/// The instruction, then a random byte wherever it could reach.
fn random_ram(row: u32, state: &State, random: &mut Random) -> Ram {
    let mut ram = Ram::new();
    let mut code = vec![0xCB, row as u8, random.byte(), random.byte()];
    if row < FIRST_PREFIXED {
        code.remove(0);
    }
    for (offset, byte) in (0..3).zip(&code) {
        ram.insert(state.pc.wrapping_add(offset), *byte);
    }
    let constant = u16::from_le_bytes([code[1], code[2]]);
    for address in reachable(state, constant) {
        ram.entry(address).or_insert_with(|| random.byte());
    }
    ram
}

fn reachable(state: &State, constant: u16) -> [u16; 11] {
    [
        state.bc(),
        state.de(),
        state.hl(),
        state.sp.wrapping_sub(2),
        state.sp.wrapping_sub(1),
        state.sp,
        state.sp.wrapping_add(1),
        constant,
        constant.wrapping_add(1),
        0xFF00 | (constant & 0x00FF),
        0xFF00 | u16::from(state.c),
    ]
}

fn is_pending(ram: &Ram) -> bool {
    let byte = |address| ram.get(&address).copied().unwrap_or(0);
    byte(IE) & byte(IF) & 0x1F != 0
}

fn memory_of(ram: &Ram) -> Vec<u8> {
    let mut memory = vec![0; second::MEMORY_SIZE];
    for (address, byte) in ram {
        memory[usize::from(*address)] = *byte;
    }
    memory
}

/// The bytes listed before and every byte that the core changed.
fn final_ram(ram: &Ram, before: &[u8], after: &[u8]) -> Ram {
    let changed = (0..=u16::MAX).filter(|&address| {
        let index = usize::from(address);
        before[index] != after[index]
    });
    let listed = ram.keys().copied().chain(changed);
    listed
        .map(|address| (address, after[usize::from(address)]))
        .collect()
}
