//! One step: dispatch, idle, or an instruction.

use crate::memory::{Machine, Memory, IF};
use crate::opcodes;
use crate::prefixed;
use crate::refusal;
use crate::state::{Ime, Mode, State};
use crate::table;

const PREFIX: u8 = 0xCB;
const DI: u8 = 0xF3;

/// What a step answers.
#[derive(Clone, Copy, PartialEq, Eq, Debug, Default)]
pub struct Stepped {
    pub code: u8,
    pub cycles: u8,
    pub state: State,
}

/// Takes one step. A refused step changes nothing and costs 0 cycles.
pub fn step(state: State, memory: &mut [u8]) -> Stepped {
    let memory = match memory.try_into() {
        Ok(memory) => memory,
        Err(_) => return refused(refusal::MEMORY_LENGTH, state),
    };
    if !state.flags_are_valid() {
        return refused(refusal::FLAG_BITS, state);
    }
    step_valid(state, memory)
}

/// The same for a memory of the right length and a valid F.
pub fn step_valid(state: State, memory: &mut Memory) -> Stepped {
    if state.mode == Mode::Stopped {
        return refused(refusal::STOPPED, state);
    }
    let machine = Machine::new(state, memory);
    let pending = machine.pending();
    if state.ime == Ime::On && pending != 0 {
        dispatch(machine)
    } else if state.mode == Mode::Halted && pending == 0 {
        done(1, state)
    } else {
        instruction(machine)
    }
}

fn refused(code: u8, state: State) -> Stepped {
    Stepped {
        code,
        cycles: 0,
        state,
    }
}

fn done(cycles: u8, state: State) -> Stepped {
    Stepped {
        code: refusal::DONE,
        cycles,
        state,
    }
}

/// Goes to a request's vector (document 02, M-100). Which request that is shows only
/// after the high byte of PC is stored, which can land on IE or IF. It is cleared
/// before the low byte is stored, which can land there too.
fn dispatch(mut machine: Machine) -> Stepped {
    let [low, high] = machine.r.pc.to_le_bytes();
    machine.push_byte(high);
    machine.r.pc = take_request(&mut machine);
    machine.push_byte(low);
    machine.r.ime = Ime::Off;
    machine.r.mode = Mode::Running;
    done(5, machine.r)
}

/// Clears the lowest request and gives its vector. Where none is left, IF stays and
/// the vector is 0.
fn take_request(machine: &mut Machine) -> u16 {
    let pending = machine.pending();
    if pending == 0 {
        return 0;
    }
    let request = pending.trailing_zeros() as u8;
    let cleared = machine.read(IF) & !(1 << request);
    machine.store(IF, cleared);
    u16::from(0x40 + 8 * request)
}

fn instruction(mut machine: Machine) -> Stepped {
    let before = machine.r;
    let opcode = machine.fetch_first();
    machine.r.mode = Mode::Running;
    let row = match execute(&mut machine, opcode) {
        Some(row) => row,
        None => return refused(refusal::UNDEFINED, before),
    };
    if before.ime == Ime::Arming && opcode != DI {
        machine.r.ime = Ime::On;
    }
    done(table::untaken_cycles(row) + machine.extra, machine.r)
}

/// Reads the bytes after the first, runs the instruction and gives its row of
/// the table. An undefined opcode has none.
fn execute(machine: &mut Machine, opcode: u8) -> Option<u32> {
    if opcode == PREFIX {
        let second = machine.fetch();
        prefixed::execute(machine, second);
        return Some(256 + u32::from(second));
    }
    let row = u32::from(opcode);
    let constant = fetch_constant(machine, table::length(row));
    opcodes::execute(machine, opcode, constant).then_some(row)
}

/// The bytes after the opcode, as one number, low byte first.
fn fetch_constant(machine: &mut Machine, length: u8) -> u16 {
    let low = if length >= 2 { machine.fetch() } else { 0 };
    let high = if length >= 3 { machine.fetch() } else { 0 };
    u16::from_le_bytes([low, high])
}
