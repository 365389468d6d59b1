//! The benchmark's plain C core, whose bound the proved core is measured against.

use crate::answer::Answer;
use second::{Ime, Mode, State};

/// `struct plain` of plain.h.
#[repr(C)]
struct Plain {
    bytes: [u8; 8],
    sp: u16,
    pc: u16,
    ime: u8,
    mode: u8,
}

extern "C" {
    fn plain_run(
        cpu: *mut Plain,
        memory: *mut u8,
        memory_length: usize,
        budget: u32,
        spent: *mut u32,
        steps: *mut u32,
    ) -> u8;
    fn plain_step(cpu: *mut Plain, memory: *mut u8, memory_length: usize, cycles: *mut u8) -> u8;
}

pub fn run(state: State, memory: &mut [u8], budget: u32) -> Answer {
    let mut cpu = to_plain(&state);
    let (mut spent, mut steps) = (u32::MAX, u32::MAX);
    // SAFETY: the pointers are to live values, and the length is the memory's.
    let code = unsafe {
        plain_run(
            &mut cpu,
            memory.as_mut_ptr(),
            memory.len(),
            budget,
            &mut spent,
            &mut steps,
        )
    };
    Answer {
        code,
        spent,
        steps,
        state: from_plain(&cpu),
    }
}

pub fn step(state: State, memory: &mut [u8]) -> Answer {
    let mut cpu = to_plain(&state);
    let mut cycles = u8::MAX;
    // SAFETY: as above.
    let code = unsafe { plain_step(&mut cpu, memory.as_mut_ptr(), memory.len(), &mut cycles) };
    Answer::of_step(code, cycles.into(), from_plain(&cpu))
}

fn to_plain(s: &State) -> Plain {
    Plain {
        bytes: [s.a, s.f, s.b, s.c, s.d, s.e, s.h, s.l],
        sp: s.sp,
        pc: s.pc,
        ime: s.ime.code(),
        mode: s.mode.code(),
    }
}

fn from_plain(plain: &Plain) -> State {
    let [a, f, b, c, d, e, h, l] = plain.bytes;
    State {
        a,
        f,
        b,
        c,
        d,
        e,
        h,
        l,
        sp: plain.sp,
        pc: plain.pc,
        ime: Ime::from_code(plain.ime).expect("the plain core keeps to codes 0 to 2"),
        mode: Mode::from_code(plain.mode).expect("the plain core keeps to codes 0 to 3"),
    }
}
