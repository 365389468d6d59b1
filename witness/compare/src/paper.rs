//! What document 01 fixes outright, stated here once more and taken from no core:
//! the refusals and their order, dispatch and HALT as M-100 of document 02 has them,
//! the saved form, the program's text, how M-102 has the old edition of a listing, and
//! in `lines` what M-103 says of an assembler's lines.

pub mod lines;

use crate::answer::Answer;
use second::{Ime, Mode, State};

pub const MEMORY_SIZE: usize = 65_536;
pub const HEAD_SIZE: usize = 23;
pub const IMAGE_SIZE: usize = 65_559;
pub const INPUT_SIZE: usize = 65_563;
pub const BUDGET_LIMIT: u32 = 1_048_576;

/// Address of the raised requests.
pub const IF: u16 = 0xFF0F;
/// Address of the enabled requests.
pub const IE: u16 = 0xFFFF;

pub const DONE: u8 = 0;
pub const MEMORY_LENGTH: u8 = 1;
pub const FLAG_BITS: u8 = 2;
pub const STOPPED: u8 = 3;
pub const UNDEFINED: u8 = 4;
pub const BUDGET: u8 = 5;
pub const SLICE_LENGTH: u8 = 6;
pub const VERSION: u8 = 7;
pub const BLOCK_LENGTH: u8 = 8;
pub const STATE_CODE: u8 = 9;
pub const ROOM: u8 = 10;
pub const EDITION: u8 = 11;
pub const LINE: u8 = 12;
pub const NESTING: u8 = 13;
pub const RANGE: u8 = 14;

/// The editions of a listing.
pub const OLD: u32 = 1;
pub const NEW: u32 = 2;

/// The bytes that are no opcode.
pub const UNDEFINED_BYTES: [u8; 11] = [
    0xD3, 0xDB, 0xDD, 0xE3, 0xE4, 0xEB, 0xEC, 0xED, 0xF4, 0xFC, 0xFD,
];

pub const HALT: u8 = 0x76;
pub const STOP: u8 = 0x10;
pub const PREFIX: u8 = 0xCB;

/// The requests that are enabled and raised.
pub fn pending(memory: &[u8]) -> u8 {
    memory[usize::from(IE)] & memory[usize::from(IF)] & 0x1F
}

pub fn dirty(state: &State) -> bool {
    state.f & 0x0F != 0
}

/// Rule 1 of a step.
pub fn dispatches(state: &State, memory: &[u8]) -> bool {
    state.ime == Ime::On && pending(memory) != 0
}

/// Rule 2 of a step.
pub fn idles(state: &State, memory: &[u8]) -> bool {
    state.mode == Mode::Halted && pending(memory) == 0
}

/// The opcode byte that rule 3 of a step reads first, if it comes to that.
pub fn opcode(state: &State, memory: &[u8]) -> Option<u8> {
    let runs = !dispatches(state, memory) && !idles(state, memory);
    runs.then(|| memory[usize::from(state.pc)])
}

/// The code of a step.
pub fn step_code(state: &State, memory: &[u8]) -> u8 {
    if memory.len() != MEMORY_SIZE {
        MEMORY_LENGTH
    } else if dirty(state) {
        FLAG_BITS
    } else if state.mode == Mode::Stopped {
        STOPPED
    } else if opcode(state, memory).map_or(false, |byte| UNDEFINED_BYTES.contains(&byte)) {
        UNDEFINED
    } else {
        DONE
    }
}

/// Rule 1 of a step carried out, as document 02's M-100 has it.
pub fn dispatch(before: &State, memory: &mut [u8]) -> Answer {
    let [high, low] = before.pc.to_be_bytes();
    memory[usize::from(before.sp.wrapping_sub(1))] = high;
    let mut pc = 0;
    if pending(memory) != 0 {
        let k = pending(memory).trailing_zeros() as u16;
        memory[usize::from(IF)] &= !(1 << k);
        pc = 0x40 + 8 * k;
    }
    memory[usize::from(before.sp.wrapping_sub(2))] = low;
    let state = State {
        sp: before.sp.wrapping_sub(2),
        pc,
        ime: Ime::Off,
        mode: Mode::Running,
        ..*before
    };
    Answer::of_step(DONE, 5, state)
}

/// HALT where rule 3 of a step reads it, as document 02's M-100 has it.
pub fn halt(before: &State, memory: &[u8]) -> Answer {
    let past = match before.mode {
        Mode::Repeat => before.pc,
        _ => before.pc.wrapping_add(1),
    };
    let (pc, mode) = match (pending(memory) != 0, before.ime) {
        (true, Ime::Arming) => (before.pc, Mode::Running),
        (true, Ime::Off) => (past, Mode::Repeat),
        _ => (past, Mode::Halted),
    };
    let ime = match before.ime {
        Ime::Off => Ime::Off,
        _ => Ime::On,
    };
    let state = State {
        pc,
        ime,
        mode,
        ..*before
    };
    Answer::of_step(DONE, 1, state)
}

/// The code of a run that isn't begun, or 0.
pub fn run_code(state: &State, memory: &[u8], budget: u32) -> u8 {
    if memory.len() != MEMORY_SIZE {
        MEMORY_LENGTH
    } else if dirty(state) {
        FLAG_BITS
    } else if budget > BUDGET_LIMIT {
        BUDGET
    } else {
        DONE
    }
}

/// The code of saving to a slice of this length, memory being there for an image only.
pub fn save_code(state: &State, memory: Option<&[u8]>, length: usize) -> u8 {
    let wanted = if memory.is_some() {
        IMAGE_SIZE
    } else {
        HEAD_SIZE
    };
    if length != wanted {
        SLICE_LENGTH
    } else if memory.map_or(false, |memory| memory.len() != MEMORY_SIZE) {
        MEMORY_LENGTH
    } else if dirty(state) {
        FLAG_BITS
    } else {
        DONE
    }
}

/// The code of listing a text of this length, in this edition, to an output of that one.
pub fn list_code(edition: u32, length: usize, room: usize) -> u8 {
    if ![OLD, NEW].contains(&edition) {
        EDITION
    } else if room < length {
        ROOM
    } else {
        DONE
    }
}

/// The old line for a new one, by the words of document 02's M-102: LDIO for LDH, LDI
/// and LDD for the loads with HLI and HLD. Every other line is the same in both.
pub fn old_line(new: &str) -> String {
    if new.contains(" LDH ") {
        new.replace(" LDH ", " LDIO ")
    } else if new.contains("[HLI]") {
        new.replace(" LD ", " LDI ").replace("[HLI]", "[HL]")
    } else if new.contains("[HLD]") {
        new.replace(" LD ", " LDD ").replace("[HLD]", "[HL]")
    } else {
        new.to_string()
    }
}

/// The 14 bytes of a state, dirty or not.
pub fn block(s: &State) -> [u8; 14] {
    let [sp_high, sp_low] = s.sp.to_be_bytes();
    let [pc_high, pc_low] = s.pc.to_be_bytes();
    let (ime, mode) = (s.ime.code(), s.mode.code());
    [
        s.a, s.f, s.b, s.c, s.d, s.e, s.h, s.l, sp_high, sp_low, pc_high, pc_low, ime, mode,
    ]
}

/// The 23 bytes of a head, for a state that may be dirty.
pub fn head(state: &State) -> [u8; HEAD_SIZE] {
    let mut bytes = [0; HEAD_SIZE];
    bytes[..5].copy_from_slice(&[1, 0, 0, 0, 14]);
    bytes[5..19].copy_from_slice(&block(state));
    bytes[19..].copy_from_slice(&[0, 1, 0, 0]);
    bytes
}

/// Code and state of a head.
pub fn load(bytes: &[u8]) -> (u8, State) {
    match read(bytes) {
        Ok(state) => (DONE, state),
        Err(code) => (code, State::default()),
    }
}

fn read(bytes: &[u8]) -> Result<State, u8> {
    if bytes.len() != HEAD_SIZE {
        return Err(SLICE_LENGTH);
    }
    if bytes[0] != 1 {
        return Err(VERSION);
    }
    if bytes[1..5] != [0, 0, 0, 14] || bytes[19..23] != [0, 1, 0, 0] {
        return Err(BLOCK_LENGTH);
    }
    if bytes[17] > 2 || bytes[18] > 3 {
        return Err(STATE_CODE);
    }
    if bytes[6] & 0x0F != 0 {
        return Err(FLAG_BITS);
    }
    Ok(state_of(&bytes[5..19]))
}

/// The state of a block whose codes are in range.
fn state_of(block: &[u8]) -> State {
    let word = |n: usize| u16::from(block[n]) * 256 + u16::from(block[n + 1]);
    State {
        a: block[0],
        f: block[1],
        b: block[2],
        c: block[3],
        d: block[4],
        e: block[5],
        h: block[6],
        l: block[7],
        sp: word(8),
        pc: word(10),
        ime: [Ime::Off, Ime::Arming, Ime::On][usize::from(block[12])],
        mode: [Mode::Running, Mode::Repeat, Mode::Halted, Mode::Stopped][usize::from(block[13])],
    }
}

/// What the program prints for the answer of its run.
pub fn text(answer: &Answer) -> String {
    let Answer {
        code,
        spent,
        steps,
        state,
    } = answer;
    if [MEMORY_LENGTH, FLAG_BITS, BUDGET].contains(code) {
        return refusal_text(*code);
    }
    let words: Vec<String> = block(state)[..12]
        .chunks(2)
        .map(|pair| format!("{:02X}{:02X}", pair[0], pair[1]))
        .collect();
    let (ime, mode) = (state.ime.code(), state.mode.code());
    let line = format!("{code} {spent} {steps} {} {ime} {mode}", words.join(" "));
    two_lines(&line)
}

/// What the program prints where the code stands alone.
pub fn refusal_text(code: u8) -> String {
    two_lines(&code.to_string())
}

fn two_lines(line: &str) -> String {
    format!("code spent steps AF BC DE HL SP PC ime mode\n{line}\n")
}

#[cfg(test)]
mod tests {
    use super::*;

    #[test]
    fn a_head_reads_back() {
        let state = State {
            a: 1,
            f: 0x20,
            h: 3,
            sp: 0x0405,
            pc: 0x0607,
            ime: Ime::On,
            mode: Mode::Halted,
            ..State::default()
        };
        assert_eq!(load(&head(&state)), (DONE, state));
    }

    #[test]
    fn the_old_line_has_the_old_name() {
        for (new, old) in [
            ("0150 22 LD [HLI],A\n", "0150 22 LDI [HL],A\n"),
            ("0150 3A LD A,[HLD]\n", "0150 3A LDD A,[HL]\n"),
            ("0150 F080 LDH A,[$FF80]\n", "0150 F080 LDIO A,[$FF80]\n"),
            ("0150 E2 LDH [C],A\n", "0150 E2 LDIO [C],A\n"),
            ("0150 7E LD A,[HL]\n", "0150 7E LD A,[HL]\n"),
            ("0150 FA80FF LD A,[$FF80]\n", "0150 FA80FF LD A,[$FF80]\n"),
        ] {
            assert_eq!(old_line(new), old);
        }
    }

    #[test]
    fn an_edition_comes_before_room() {
        assert_eq!(list_code(OLD, 5, 5), DONE);
        assert_eq!(list_code(NEW, 5, 4), ROOM);
        for edition in [0, 3, 257, u32::MAX] {
            assert_eq!(list_code(edition, 5, 5), EDITION);
            assert_eq!(list_code(edition, 5, 4), EDITION);
            assert_eq!(list_code(edition, 0, 0), EDITION);
        }
    }

    #[test]
    fn the_printed_line_of_the_worked_example() {
        let answer = Answer {
            code: 0,
            spent: 30,
            steps: 16,
            state: State {
                a: 2,
                f: 0xC0,
                d: 0xC1,
                e: 2,
                h: 0xC0,
                l: 2,
                sp: 0xE000,
                pc: 0x1234,
                ..State::default()
            },
        };
        let expected = "code spent steps AF BC DE HL SP PC ime mode\n\
                        0 30 16 02C0 0000 C102 C002 E000 1234 0 0\n";
        assert_eq!(text(&answer), expected);
    }
}
