//! The saved form: a head of 23 bytes, or an image with the memory after it.
//!
//! | bytes    | content                                        |
//! |----------|------------------------------------------------|
//! | 0        | version, 1                                     |
//! | 1 to 4   | length of the state block, 14                  |
//! | 5 to 12  | A F B C D E H L                                |
//! | 13 to 16 | SP, PC                                         |
//! | 17, 18   | codes of IME and mode                          |
//! | 19 to 22 | length of the memory block, 65,536             |
//! | 23 on    | the memory, in an image                        |

use crate::memory::SIZE;
use crate::refusal;
use crate::state::{Ime, Mode, State};

/// Bytes of a head.
pub const HEAD_SIZE: usize = 23;

/// Bytes of an image.
pub const IMAGE_SIZE: usize = HEAD_SIZE + SIZE;

const VERSION: u8 = 1;
const STATE_BLOCK: [u8; 4] = 14_u32.to_be_bytes();
const MEMORY_BLOCK: [u8; 4] = 65_536_u32.to_be_bytes();

/// Reads a head that stands alone.
pub fn load_head(head: &[u8]) -> (u8, State) {
    match <&[u8; HEAD_SIZE]>::try_from(head) {
        Ok(head) => answer(read_head(head)),
        Err(_) => answer(Err(refusal::LENGTH)),
    }
}

/// Opens an image and lends its memory.
pub fn open_image(image: &[u8]) -> (u8, State, &[u8]) {
    if image.len() != IMAGE_SIZE {
        return (refusal::LENGTH, State::default(), &[]);
    }
    let (head, memory) = image.split_at(HEAD_SIZE);
    match load_head(head) {
        (refusal::DONE, state) => (refusal::DONE, state, memory),
        (code, state) => (code, state, &[]),
    }
}

/// Writes a head of 23 bytes, or leaves the slice as it was.
pub fn save_head(state: State, head: &mut [u8]) -> u8 {
    let head: &mut [u8; HEAD_SIZE] = match head.try_into() {
        Ok(head) => head,
        Err(_) => return refusal::LENGTH,
    };
    if !state.flags_are_valid() {
        return refusal::FLAG_BITS;
    }
    *head = head_of(state);
    refusal::DONE
}

/// Writes an image of 65,559 bytes, or leaves the slice as it was.
pub fn save_image(state: State, memory: &[u8], image: &mut [u8]) -> u8 {
    if image.len() != IMAGE_SIZE {
        return refusal::LENGTH;
    }
    if memory.len() != SIZE {
        return refusal::MEMORY_LENGTH;
    }
    if !state.flags_are_valid() {
        return refusal::FLAG_BITS;
    }
    image[..HEAD_SIZE].copy_from_slice(&head_of(state));
    image[HEAD_SIZE..].copy_from_slice(memory);
    refusal::DONE
}

fn answer(read: Result<State, u8>) -> (u8, State) {
    match read {
        Ok(state) => (refusal::DONE, state),
        Err(code) => (code, State::default()),
    }
}

fn read_head(head: &[u8; HEAD_SIZE]) -> Result<State, u8> {
    if head[0] != VERSION {
        return Err(refusal::VERSION);
    }
    if head[1..5] != STATE_BLOCK || head[19..23] != MEMORY_BLOCK {
        return Err(refusal::BLOCK_LENGTH);
    }
    let state = read_state(head).ok_or(refusal::STATE_CODE)?;
    if !state.flags_are_valid() {
        return Err(refusal::FLAG_BITS);
    }
    Ok(state)
}

/// The state block, or nothing where a code has no meaning.
fn read_state(head: &[u8; HEAD_SIZE]) -> Option<State> {
    Some(State {
        a: head[5],
        f: head[6],
        b: head[7],
        c: head[8],
        d: head[9],
        e: head[10],
        h: head[11],
        l: head[12],
        sp: u16::from_be_bytes([head[13], head[14]]),
        pc: u16::from_be_bytes([head[15], head[16]]),
        ime: Ime::from_code(head[17])?,
        mode: Mode::from_code(head[18])?,
    })
}

fn head_of(state: State) -> [u8; HEAD_SIZE] {
    let mut head = [0; HEAD_SIZE];
    head[0] = VERSION;
    head[1..5].copy_from_slice(&STATE_BLOCK);
    head[5..7].copy_from_slice(&[state.a, state.f]);
    head[7..9].copy_from_slice(&[state.b, state.c]);
    head[9..11].copy_from_slice(&[state.d, state.e]);
    head[11..13].copy_from_slice(&[state.h, state.l]);
    head[13..15].copy_from_slice(&state.sp.to_be_bytes());
    head[15..17].copy_from_slice(&state.pc.to_be_bytes());
    head[17] = state.ime.code();
    head[18] = state.mode.code();
    head[19..23].copy_from_slice(&MEMORY_BLOCK);
    head
}
