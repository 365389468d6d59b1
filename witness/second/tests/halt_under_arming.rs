//! HALT in the shadow of an EI (document 02, M-100): with a request pending it does
//! not halt, and the dispatch that follows returns to it.

mod common;

use common::{memory, IE, IF};
use second::{step, Ime, Mode, State};

const HALT: u8 = 0x76;

/// Armed at `pc`, with a stack out of the way.
fn armed(pc: u16, mode: Mode) -> State {
    State {
        pc,
        sp: 0xD000,
        ime: Ime::Arming,
        mode,
        ..State::default()
    }
}

/// HALT at the state's PC with request 1 pending: nothing moves but the switch, and
/// the dispatch that follows pushes the HALT's own address.
fn stays_and_is_returned_to(before: State) {
    let start = memory(&[(IE, &[0x02]), (IF, &[0x02]), (before.pc, &[HALT])]);
    let mut memory = start.clone();
    let halt = step(before, &mut memory);
    let stayed = State {
        ime: Ime::On,
        mode: Mode::Running,
        ..before
    };
    assert_eq!((halt.code, halt.cycles, halt.state), (0, 1, stayed));
    assert_eq!(memory, start);
    let dispatch = step(halt.state, &mut memory);
    assert_eq!((dispatch.cycles, dispatch.state.pc), (5, 0x0048));
    assert_eq!(memory[0xCFFE..0xD000], before.pc.to_le_bytes());
}

#[test]
fn a_request_keeps_pc_at_the_halt() {
    for mode in [Mode::Running, Mode::Repeat, Mode::Halted] {
        stays_and_is_returned_to(armed(0x0200, mode));
        stays_and_is_returned_to(armed(0x0000, mode));
        // HALT's own byte, $76, is IE or IF here.
        stays_and_is_returned_to(armed(0xFFFF, mode));
        stays_and_is_returned_to(armed(0xFF0F, mode));
    }
}

#[test]
fn without_a_request_it_halts_after_its_byte() {
    for (mode, pc) in [(Mode::Running, 0x0201), (Mode::Repeat, 0x0200)] {
        let mut memory = memory(&[(0x0200, &[HALT]), (IE, &[0x0F]), (IF, &[0xF0])]);
        let stepped = step(armed(0x0200, mode), &mut memory);
        let halted = State {
            ime: Ime::On,
            ..armed(pc, Mode::Halted)
        };
        assert_eq!(
            (stepped.code, stepped.cycles, stepped.state),
            (0, 1, halted)
        );
    }
}

/// The state after each step, as PC, SP, switch, mode and the step's cycles.
type Seen = (u16, u16, Ime, Mode, u8);

fn steps(mut state: State, memory: &mut [u8], count: usize) -> Vec<Seen> {
    let mut one = || {
        let stepped = step(state, memory);
        assert_eq!(stepped.code, 0);
        state = stepped.state;
        (state.pc, state.sp, state.ime, state.mode, stepped.cycles)
    };
    (0..count).map(|_| one()).collect()
}

#[test]
fn the_handler_returns_to_the_halt_which_then_halts() {
    let code = [0xFB, HALT, 0x3C]; // EI, HALT, INC A
    let mut memory = memory(&[(0x0200, &code), (0x0050, &[0xD9]), (IE, &[4]), (IF, &[4])]);
    let before = State {
        pc: 0x0200,
        sp: 0xD000,
        ..State::default()
    };
    let wanted = [
        (0x0201, 0xD000, Ime::Arming, Mode::Running, 1), // EI
        (0x0201, 0xD000, Ime::On, Mode::Running, 1),     // HALT, which PC stays at
        (0x0050, 0xCFFE, Ime::Off, Mode::Running, 5),    // the dispatch
        (0x0201, 0xD000, Ime::On, Mode::Running, 4),     // RETI
        (0x0202, 0xD000, Ime::On, Mode::Halted, 1),      // HALT again: the request is gone
        (0x0202, 0xD000, Ime::On, Mode::Halted, 1),      // and nothing comes
    ];
    assert_eq!(steps(before, &mut memory, 6), wanted);
    assert_eq!(memory[0xCFFE..0xD000], [0x01, 0x02]);
    assert_eq!(memory[usize::from(IF)], 0);
}

#[test]
fn every_request_is_handled_before_it_halts() {
    let mut memory = memory(&[(0, &[HALT]), (IE, &[0x1F]), (IF, &[0x15])]);
    for vector in [0x40, 0x50, 0x60] {
        memory[vector] = 0xD9; // RETI
    }
    let seen = steps(armed(0, Mode::Running), &mut memory, 8);
    let places: Vec<u16> = seen.iter().map(|seen| seen.0).collect();
    assert_eq!(places, [0, 0x40, 0, 0x50, 0, 0x60, 0, 1]);
    assert_eq!(seen[7], (1, 0xD000, Ime::On, Mode::Halted, 1));
}
