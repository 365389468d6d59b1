//! Inputs for document 01's program, with the second program's answers beside
//! them: what the proved program is tested on.

use crate::check::ROUTINE;
use crate::draw;
use crate::paper::{self, BUDGET_LIMIT, IE, IF, INPUT_SIZE, MEMORY_SIZE, UNDEFINED_BYTES};
use random::Random;
use second::{Ime, Mode, State};
use std::path::Path;

/// One input under its name.
pub struct File {
    pub name: String,
    pub bytes: Vec<u8>,
}

const RANDOM_RUNS: usize = 12;

/// The second program's answers are the same for every seed, so the seed is fixed.
const SEED: u64 = 1;

/// Writes NAME.in and NAME.out for every input.
pub fn write(folder: &Path) -> Result<usize, String> {
    let explain = |error: std::io::Error| format!("{}: {error}", folder.display());
    std::fs::create_dir_all(folder).map_err(explain)?;
    let files = all();
    for file in &files {
        let answer = second::program(&file.bytes);
        std::fs::write(folder.join(format!("{}.in", file.name)), &file.bytes).map_err(explain)?;
        std::fs::write(folder.join(format!("{}.out", file.name)), answer).map_err(explain)?;
    }
    Ok(files.len())
}

pub fn all() -> Vec<File> {
    let mut files = Vec::new();
    let mut add = |name: &str, bytes: Vec<u8>| {
        let name = name.to_string();
        files.push(File { name, bytes });
    };
    add("worked-example", worked_example());
    for (name, bytes) in budgets().into_iter().chain(ends()).chain(refused_heads()) {
        add(name, bytes);
    }
    for (name, length) in LENGTHS {
        let mut bytes = worked_example();
        bytes.resize(length, 0);
        add(name, bytes);
    }
    let mut rng = Random::new(SEED, "inputs");
    for n in 1..=RANDOM_RUNS {
        add(&format!("random-{n:02}"), random_run(&mut rng));
    }
    files
}

type Named = Vec<(&'static str, Vec<u8>)>;

const LENGTHS: [(&str, usize); 5] = [
    ("empty", 0),
    ("budget-alone", 4),
    ("head-alone", 27),
    ("short-by-one", INPUT_SIZE - 1),
    ("long-by-one", INPUT_SIZE + 1),
];

fn input(budget: u32, head: &[u8], memory: &[u8]) -> Vec<u8> {
    [&budget.to_be_bytes(), head, memory].concat()
}

fn run(budget: u32, state: State, memory: &[u8]) -> Vec<u8> {
    input(budget, &paper::head(&state), memory)
}

/// Zeros but for some bytes at $0100.
fn code(bytes: &[u8]) -> Vec<u8> {
    let mut memory = vec![0; MEMORY_SIZE];
    memory[0x0100..0x0100 + bytes.len()].copy_from_slice(bytes);
    memory
}

const START: State = State {
    a: 0x01,
    f: 0xB0,
    b: 0x00,
    c: 0x13,
    d: 0x00,
    e: 0xD8,
    h: 0x01,
    l: 0x4D,
    sp: 0xFFFE,
    pc: 0x0100,
    ime: Ime::Off,
    mode: Mode::Running,
};

/// Document 01's example.
pub fn worked_example() -> Vec<u8> {
    let mut memory = vec![0; MEMORY_SIZE];
    memory[0x0150..0x015A].copy_from_slice(&ROUTINE);
    memory[0xC000..0xC002].copy_from_slice(&[0x99, 0x01]);
    memory[0xC100] = 0x01;
    memory[0xDFFE..0xE000].copy_from_slice(&[0x34, 0x12]);
    let state = State {
        pc: 0x0150,
        h: 0xC0,
        d: 0xC1,
        sp: 0xDFFE,
        b: 2,
        ..State::default()
    };
    run(30, state, &memory)
}

fn budgets() -> Named {
    let loops = code(&[0x3C, 0x18, 0xFD]);
    let calls = code(&[0xCD, 0x00, 0x01]);
    let stopped = State {
        mode: Mode::Stopped,
        ..START
    };
    let (zeros, limit) = (code(&[]), BUDGET_LIMIT);
    vec![
        ("budget-0", run(0, START, &loops)),
        ("budget-0-stopped", run(0, stopped, &loops)),
        ("budget-1", run(1, START, &loops)),
        ("budget-1-spends-6", run(1, START, &calls)),
        ("budget-limit", run(limit, START, &loops)),
        ("budget-limit-in-single-cycles", run(limit, START, &zeros)),
        ("budget-above-limit", run(limit + 1, START, &loops)),
        (
            "budget-above-limit-stopped",
            run(limit + 1, stopped, &loops),
        ),
        ("budget-highest", run(u32::MAX, START, &loops)),
    ]
}

/// Runs that a refused step ends, and runs past HALT and a dispatch.
fn ends() -> Named {
    let in_mode = |mode| State { mode, ..START };
    let undefined = UNDEFINED_BYTES[0];
    let mut requested = code(&[0x3E, 0x04, 0xE0, 0x0F, 0xE0, 0xFF, 0xFB, 0x00, 0x76]);
    requested[0x50..0x52].copy_from_slice(&[0x3C, 0xD9]);
    vec![
        ("ends-stopped", run(100, START, &code(&[0x3C, 0x10, 0x00]))),
        (
            "ends-stopped-at-once",
            run(100, in_mode(Mode::Stopped), &code(&[])),
        ),
        (
            "ends-undefined",
            run(100, START, &code(&[0x3C, 0x04, undefined])),
        ),
        (
            "ends-undefined-at-once",
            run(100, START, &code(&[undefined])),
        ),
        ("halts", run(50, START, &code(&[0x3C, 0x76]))),
        ("repeats", run(9, in_mode(Mode::Repeat), &code(&[0x3C]))),
        ("dispatches", run(40, START, &requested)),
    ]
}

/// Heads refused by each number, alone and before others that would come later.
fn refused_heads() -> Named {
    let faulty = |budget, faults: &[(usize, u8)]| {
        let mut head = paper::head(&START);
        for (place, value) in faults {
            head[*place] = *value;
        }
        input(budget, &head, &code(&[]))
    };
    let above = BUDGET_LIMIT + 1;
    vec![
        ("refused-version-0", faulty(10, &[(0, 0)])),
        ("refused-version-2", faulty(10, &[(0, 2)])),
        (
            "refused-version-first",
            faulty(above, &[(0, 2), (4, 0), (17, 9), (6, 1)]),
        ),
        ("refused-state-length", faulty(10, &[(4, 13)])),
        ("refused-memory-length", faulty(10, &[(22, 1)])),
        (
            "refused-length-first",
            faulty(above, &[(19, 1), (18, 9), (6, 1)]),
        ),
        ("refused-ime", faulty(10, &[(17, 3)])),
        ("refused-mode", faulty(10, &[(18, 4)])),
        ("refused-code-first", faulty(above, &[(18, 4), (6, 1)])),
        ("refused-flags", faulty(10, &[(6, 0xB1)])),
        ("refused-flags-first", faulty(above, &[(6, 0xB8)])),
    ]
}

/// Any state on any memory with requests.
pub fn random_run(rng: &mut Random) -> Vec<u8> {
    let mut memory = draw::tame_noise(rng);
    memory[usize::from(IE)] = rng.byte();
    memory[usize::from(IF)] = rng.byte();
    let budget = rng.below(20_000);
    let state = draw::state(rng);
    run(budget, state, &memory)
}

#[cfg(test)]
mod tests {
    use super::*;
    use std::collections::BTreeSet;

    fn code_of(file: &File) -> String {
        let text = second::program(&file.bytes);
        let line = text.lines().nth(1).expect("a second line");
        line.split(' ').next().expect("a code").to_string()
    }

    #[test]
    fn every_number_that_the_program_reaches_is_there() {
        let codes: BTreeSet<String> = all().iter().map(code_of).collect();
        let wanted: BTreeSet<String> = ["0", "2", "3", "4", "5", "6", "7", "8", "9"]
            .map(String::from)
            .into();
        assert_eq!(codes, wanted);
    }

    #[test]
    fn names_are_unlike() {
        let names: BTreeSet<String> = all().into_iter().map(|file| file.name).collect();
        assert_eq!(names.len(), all().len());
    }
}
