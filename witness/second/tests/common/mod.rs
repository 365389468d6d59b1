//! What the tests share: a memory with bytes placed in it.

// Each test file is a program of its own and uses a part of this.
#![allow(dead_code)]

use second::{step, State, Stepped};

pub const IF: u16 = 0xFF0F;
pub const IE: u16 = 0xFFFF;

/// A memory of zero bytes, apart from those given.
pub fn memory(placed: &[(u16, &[u8])]) -> Vec<u8> {
    let mut memory = vec![0; 65_536];
    for (address, bytes) in placed {
        for (index, byte) in bytes.iter().enumerate() {
            memory[usize::from(address.wrapping_add(index as u16))] = *byte;
        }
    }
    memory
}

/// One step on a memory that holds `code` at PC and zero bytes elsewhere.
pub fn step_on(code: &[u8], state: State) -> Stepped {
    step(state, &mut memory(&[(state.pc, code)]))
}

/// The addresses where two memories differ.
pub fn changed(before: &[u8], after: &[u8]) -> Vec<u16> {
    assert_eq!(before.len(), after.len());
    (0..=0xFFFF)
        .filter(|&address: &u16| before[usize::from(address)] != after[usize::from(address)])
        .collect()
}
