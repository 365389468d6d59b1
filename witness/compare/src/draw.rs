//! Random states and memories, with a liking for the edges.

use crate::paper::{MEMORY_SIZE, NEW, OLD, STOP, UNDEFINED_BYTES};
use random::Random;
use second::{Ime, Mode, State};

/// Addresses where something turns over or has a meaning.
pub const EDGES: [u16; 16] = [
    0x0000, 0x0001, 0x0002, 0x00FF, 0x0100, 0x7FFF, 0x8000, 0xFEFF, 0xFF0E, 0xFF0F, 0xFF10, 0xFF11,
    0xFFFC, 0xFFFD, 0xFFFE, 0xFFFF,
];

pub const SWITCHES: [Ime; 3] = [Ime::Off, Ime::Arming, Ime::On];

/// Every mode in which a step can be accepted.
pub const LIVE_MODES: [Mode; 3] = [Mode::Running, Mode::Repeat, Mode::Halted];

pub fn address(rng: &mut Random) -> u16 {
    match rng.one_in(4) {
        true => rng.pick(&EDGES),
        false => rng.word(),
    }
}

/// A number that is no edition's, though its low byte or word often is.
pub fn no_edition(rng: &mut Random) -> u32 {
    let edition = rng.pick(&[OLD, NEW]);
    match rng.below(4) {
        0 => edition + 0x100 * (1 + rng.below(0xFF_FFFF)),
        1 => edition + 0x1_0000 * (1 + rng.below(0xFFFF)),
        _ => 3 + rng.below(u32::MAX - 2),
    }
}

/// Any registers, valid F and any switch; Running.
pub fn state(rng: &mut Random) -> State {
    let mut state = State {
        a: rng.byte(),
        f: rng.byte() & 0xF0,
        sp: address(rng),
        pc: address(rng),
        ime: rng.pick(&SWITCHES),
        ..State::default()
    };
    [state.b, state.c] = address(rng).to_be_bytes();
    [state.d, state.e] = address(rng).to_be_bytes();
    [state.h, state.l] = address(rng).to_be_bytes();
    state
}

/// A memory of any bytes.
pub fn noise(rng: &mut Random) -> Vec<u8> {
    rng.bytes(MEMORY_SIZE)
}

/// The same without bytes that would end a run.
pub fn tame_noise(rng: &mut Random) -> Vec<u8> {
    let mut memory = noise(rng);
    for byte in &mut memory {
        while *byte == STOP || UNDEFINED_BYTES.contains(byte) {
            *byte = rng.byte();
        }
    }
    memory
}
