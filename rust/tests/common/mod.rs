//! What the tests share; each uses a part of it.
#![allow(dead_code)]

use trnadulek::{save_image, Cpu, Ime, Mode, HEAD_SIZE, IMAGE_SIZE, MEMORY_SIZE};

/// A memory of zeros with some bytes put into it.
pub fn memory(parts: &[(usize, &[u8])]) -> Vec<u8> {
    let mut memory = vec![0; MEMORY_SIZE];
    for (at, bytes) in parts {
        memory[*at..at + bytes.len()].copy_from_slice(bytes);
    }
    memory
}

/// The image that a save writes.
pub fn image_of(cpu: Cpu, memory: &[u8]) -> Vec<u8> {
    let mut image = vec![0; IMAGE_SIZE];
    save_image(cpu, memory, &mut image).unwrap();
    image
}

/// A state with no two fields alike.
pub fn sample() -> Cpu {
    Cpu {
        a: 0x11,
        f: 0xB0,
        b: 0x22,
        c: 0x33,
        d: 0x44,
        e: 0x55,
        h: 0x66,
        l: 0x77,
        sp: 0x8899,
        pc: 0xAABB,
        ime: Ime::Arming,
        mode: Mode::Halted,
    }
}

/// The head of [`sample`], byte by byte as document 01 has it.
pub const SAMPLE_HEAD: [u8; HEAD_SIZE] = [
    1, 0, 0, 0, 14, 0x11, 0xB0, 0x22, 0x33, 0x44, 0x55, 0x66, 0x77, 0x88, 0x99, 0xAA, 0xBB, 1, 2,
    0, 1, 0, 0,
];

/// A memory in which no byte is like its neighbours.
pub fn sample_memory() -> Vec<u8> {
    (0..MEMORY_SIZE)
        .map(|at| (at * 7 + at / 256) as u8)
        .collect()
}

/// The image of [`sample`] and [`sample_memory`].
pub fn sample_image() -> Vec<u8> {
    [SAMPLE_HEAD.as_slice(), &sample_memory()].concat()
}
