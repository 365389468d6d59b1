//! The twelve cases of document 01, whole: all registers, memory and cycles.

use crate::answer::{registers, same_answer, Answer};
use crate::context::{Context, Failure, Outcome};
use crate::input::Input;
use crate::paper::{IE, IF, MEMORY_SIZE};
use second::{Ime, State};

/// A state, the bytes beside it that aren't 0, and what a step makes of them.
struct Case {
    before: State,
    bytes: &'static [(u16, u8)],
    after: State,
    cycles: u32,
    changed: &'static [(u16, u8)],
}

const ZERO: State = State {
    a: 0,
    f: 0,
    b: 0,
    c: 0,
    d: 0,
    e: 0,
    h: 0,
    l: 0,
    sp: 0,
    pc: 0,
    ime: Ime::Off,
    mode: second::Mode::Running,
};

const fn af(a: u8, f: u8, pc: u16) -> State {
    State { a, f, pc, ..ZERO }
}

/// A case that changes A, F and PC alone.
const fn byte_case(
    bytes: &'static [(u16, u8)],
    before: (u8, u8),
    after: (u8, u8),
    cycles: u32,
) -> Case {
    Case {
        before: af(before.0, before.1, 0),
        bytes,
        after: af(after.0, after.1, cycles as u16),
        cycles,
        changed: &[],
    }
}

/// In document 01's order.
const CASES: [Case; 12] = [
    byte_case(&[(0, 0xC6), (1, 0xC6)], (0x3A, 0x00), (0x00, 0xB0), 2),
    byte_case(&[(0, 0xCE)], (0x0F, 0x10), (0x10, 0x20), 2),
    byte_case(&[(0, 0xD6), (1, 0x01)], (0x00, 0x00), (0xFF, 0x70), 2),
    byte_case(&[(0, 0xDE), (1, 0x2A)], (0x3B, 0x10), (0x10, 0x40), 2),
    byte_case(&[(0, 0x3C)], (0xFF, 0x10), (0x00, 0xB0), 1),
    Case {
        before: State {
            h: 0x8A,
            l: 0x23,
            b: 0x06,
            c: 0x05,
            ..af(0, 0x80, 0)
        },
        bytes: &[(0, 0x09)],
        after: State {
            h: 0x90,
            l: 0x28,
            b: 0x06,
            c: 0x05,
            ..af(0, 0xA0, 1)
        },
        cycles: 2,
        changed: &[],
    },
    Case {
        before: State { sp: 1, ..ZERO },
        bytes: &[(0, 0xE8), (1, 0xFF)],
        after: State {
            sp: 0,
            ..af(0, 0x30, 2)
        },
        cycles: 4,
        changed: &[],
    },
    byte_case(&[(0, 0x27)], (0x9A, 0x00), (0x00, 0x90), 1),
    byte_case(&[(0, 0x27)], (0xFF, 0x70), (0x99, 0x50), 1),
    Case {
        before: State { sp: 0xC000, ..ZERO },
        bytes: &[(0, 0xF1), (0xC000, 0xFF), (0xC001, 0x12)],
        after: State {
            sp: 0xC002,
            ..af(0x12, 0xF0, 1)
        },
        cycles: 3,
        changed: &[],
    },
    Case {
        before: State { pc: 0xFFFE, ..ZERO },
        bytes: &[(0xFFFE, 0x18), (0xFFFF, 0x02)],
        after: State { pc: 2, ..ZERO },
        cycles: 3,
        changed: &[],
    },
    Case {
        before: State {
            ime: Ime::On,
            pc: 0xC123,
            sp: 0xFFFE,
            ..ZERO
        },
        bytes: &[(IE, 5), (IF, 6)],
        after: State {
            pc: 0x0050,
            sp: 0xFFFC,
            ..ZERO
        },
        cycles: 5,
        changed: &[(IF, 2), (0xFFFD, 0xC1), (0xFFFC, 0x23)],
    },
];

pub fn cases(context: &mut Context) -> Outcome {
    for (number, case) in (1..).zip(&CASES) {
        run(context, number, case)?;
    }
    Ok(())
}

fn run(context: &mut Context, number: usize, case: &Case) -> Outcome {
    let mut memory = vec![0; MEMORY_SIZE];
    write(&mut memory, case.bytes);
    context.bench.lay(&memory);
    let step = context.step(case.before)?;
    let expected = Answer::of_step(0, case.cycles, case.after);
    let failure = |what| Failure {
        what,
        input: Some(Input::step(case.before, memory.clone())),
    };
    let who = format!("case {number} from {}", registers(&case.before));
    same_answer(&who, &expected, &step.answer).map_err(failure)?;
    let mut after = memory.clone();
    write(&mut after, case.changed);
    if after != context.bench.memory() {
        return Err(failure(format!("{who}: the memory is another")));
    }
    context.tally.paper += u64::from(!step.judged.paper);
    Ok(())
}

fn write(memory: &mut [u8], bytes: &[(u16, u8)]) {
    for (address, byte) in bytes {
        memory[usize::from(*address)] = *byte;
    }
}
