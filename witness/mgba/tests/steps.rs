//! What the shim makes of mGBA's core, on steps whose answers are known.

use mgba::{judges, Core, Outcome};
use second::{Ime, Mode, State};

const IF: u16 = 0xFF0F;
const IE: u16 = 0xFFFF;

fn memory(bytes: &[(u16, u8)]) -> Vec<u8> {
    let mut memory = vec![0; mgba::MEMORY_SIZE];
    for (address, byte) in bytes {
        memory[usize::from(*address)] = *byte;
    }
    memory
}

fn step(state: &State, memory: &mut [u8]) -> Outcome {
    assert!(judges(state, memory));
    Core::new().step(state, memory)
}

#[test]
fn the_worked_example() {
    let mut memory = memory(&[(0xC000, 0x99), (0xC001, 0x01), (0xC100, 0x01)]);
    memory[0x0150..0x015A]
        .copy_from_slice(&[0xA7, 0x1A, 0x8E, 0x27, 0x22, 0x13, 0x05, 0x20, 0xF8, 0xC9]);
    memory[0xDFFE..0xE000].copy_from_slice(&[0x34, 0x12]);
    let mut state = State {
        pc: 0x0150,
        h: 0xC0,
        d: 0xC1,
        sp: 0xDFFE,
        b: 2,
        ..State::default()
    };
    let mut core = Core::new();
    let mut spent = 0;
    for _ in 0..16 {
        let outcome = core.step(&state, &mut memory);
        spent += outcome.cycles;
        state = outcome.state;
    }
    let expected = State {
        a: 0x02,
        f: 0xC0,
        d: 0xC1,
        e: 0x02,
        h: 0xC0,
        l: 0x02,
        sp: 0xE000,
        pc: 0x1234,
        ..State::default()
    };
    assert_eq!((spent, state), (30, expected));
    assert_eq!(memory[0xC000..0xC002], [0x00, 0x02]);
}

#[test]
fn a_dispatch_takes_five_cycles_and_fetches_nothing() {
    let mut memory = memory(&[(IE, 5), (IF, 6)]);
    let state = State {
        ime: Ime::On,
        pc: 0xC123,
        sp: 0xFFFE,
        ..State::default()
    };
    let outcome = step(&state, &mut memory);
    let expected = State {
        pc: 0x0050,
        sp: 0xFFFC,
        ..State::default()
    };
    assert_eq!(
        (outcome.state, outcome.cycles, outcome.fetched),
        (expected, 5, 0)
    );
    assert_eq!(
        (memory[usize::from(IF)], &memory[0xFFFC..0xFFFE]),
        (2, &[0x23, 0xC1][..])
    );
}

/// PC and IF after a dispatch with IE $04 and IF $0C: request 2 is due.
fn dispatched(sp: u16, pc: u16) -> (u16, u8) {
    let mut memory = memory(&[(IE, 0x04), (IF, 0x0C)]);
    let state = State {
        ime: Ime::On,
        pc,
        sp,
        ..State::default()
    };
    let outcome = step(&state, &mut memory);
    assert_eq!((outcome.state.sp, outcome.cycles), (sp.wrapping_sub(2), 5));
    (outcome.state.pc, memory[usize::from(IF)])
}

#[test]
fn a_dispatch_asks_for_the_vector_between_its_two_stores() {
    // The high byte goes over IE: it keeps the request, changes it, and leaves none.
    assert_eq!(dispatched(0x0000, 0x0450), (0x0050, 0x08));
    assert_eq!(dispatched(0x0000, 0x0850), (0x0058, 0x04));
    assert_eq!(dispatched(0x0000, 0x2050), (0x0000, 0x0C));
    // The high byte goes over IF; the low byte goes over IF, and over IE.
    assert_eq!(dispatched(0xFF10, 0x1650), (0x0050, 0x12));
    assert_eq!(dispatched(0xFF11, 0x12AB), (0x0050, 0xAB));
    assert_eq!(dispatched(0x0001, 0x1200), (0x0050, 0x08));
}

#[test]
fn ei_is_late_by_one_instruction_and_reti_is_not() {
    let mut memory = memory(&[(0, 0xFB), (2, 0xD9), (8, 0xF3)]);
    let outcome = step(&State::default(), &mut memory);
    assert_eq!((outcome.state.ime, outcome.cycles), (Ime::Arming, 1));
    let outcome = step(&outcome.state, &mut memory);
    assert_eq!(outcome.state.ime, Ime::On);
    let returning = State {
        pc: 2,
        sp: 0x1000,
        ..State::default()
    };
    let outcome = step(&returning, &mut memory);
    assert_eq!((outcome.state.ime, outcome.cycles), (Ime::On, 4));
    let armed_before_di = State {
        pc: 8,
        ime: Ime::Arming,
        ..State::default()
    };
    assert_eq!(step(&armed_before_di, &mut memory).state.ime, Ime::Off);
}

#[test]
fn halt_with_a_request_and_the_switch_off_repeats_the_next_byte() {
    let mut memory = memory(&[(0, 0x76), (1, 0x3E), (IE, 1), (IF, 1)]);
    let outcome = step(&State::default(), &mut memory);
    assert_eq!((outcome.state.mode, outcome.state.pc), (Mode::Repeat, 1));
    let outcome = step(&outcome.state, &mut memory);
    assert_eq!((outcome.state.a, outcome.state.pc), (0x3E, 2));
    assert_eq!((outcome.state.mode, outcome.fetched), (Mode::Running, 2));
}

#[test]
fn halt_under_arming_with_a_request_goes_on() {
    // PC is past it, but for Repeat, where the first byte does not move PC.
    let places = [(Mode::Running, 1), (Mode::Repeat, 0), (Mode::Halted, 1)];
    for (mode, pc) in places {
        let armed = State {
            ime: Ime::Arming,
            mode,
            ..State::default()
        };
        let outcome = step(&armed, &mut memory(&[(0, 0x76), (IE, 1), (IF, 1)]));
        let gone_on = State {
            pc,
            ime: Ime::On,
            ..State::default()
        };
        assert_eq!((outcome.state, outcome.cycles), (gone_on, 1), "{mode:?}");
    }
}

#[test]
fn halt_without_a_request_halts_and_idles() {
    let mut memory = memory(&[(0, 0x76)]);
    let halted = step(&State::default(), &mut memory).state;
    assert_eq!((halted.mode, halted.pc), (Mode::Halted, 1));
    assert!(!judges(&halted, &memory));
    let idle = Core::new().step(&halted, &mut memory);
    assert_eq!((idle.state, idle.cycles), (halted, 1));
}

#[test]
fn stop_and_undefined_opcodes_reach_their_hooks() {
    let mut memory = memory(&[(0, 0x10), (2, 0xD3)]);
    let outcome = step(&State::default(), &mut memory);
    assert_eq!((outcome.state.mode, outcome.state.pc), (Mode::Stopped, 2));
    let at_undefined = State {
        pc: 2,
        ..State::default()
    };
    assert!(step(&at_undefined, &mut memory).illegal);
}

#[test]
fn what_it_cannot_judge() {
    let memory = memory(&[]);
    let dirty = State {
        f: 1,
        ..State::default()
    };
    let stopped = State {
        mode: Mode::Stopped,
        ..State::default()
    };
    assert!(!judges(&dirty, &memory));
    assert!(!judges(&stopped, &memory));
    assert!(!judges(&State::default(), &memory[1..]));
}
