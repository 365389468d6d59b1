//! EI, DI, RETI, HALT, STOP, idle steps and dispatch under every switch.

mod common;

use common::{memory, IE, IF};
use second::{step, Ime, Mode, State, Stepped};

fn at(ime: Ime, mode: Mode) -> State {
    State {
        pc: 0x0200,
        sp: 0xD000,
        ime,
        mode,
        ..State::default()
    }
}

/// One step of `code` at $0200, with or without a request pending.
fn step_with(code: u8, state: State, request: bool) -> Stepped {
    let bits = if request { [0x04] } else { [0x00] };
    let mut memory = memory(&[(0x0200, &[code]), (IE, &[0x1F]), (IF, &bits)]);
    step(state, &mut memory)
}

fn switch_and_mode(stepped: Stepped) -> (Ime, Mode) {
    assert_eq!(stepped.code, 0);
    (stepped.state.ime, stepped.state.mode)
}

#[test]
fn arming_is_on_after_any_instruction_but_di() {
    let after = |code, ime| step_with(code, at(ime, Mode::Running), false).state.ime;
    assert_eq!(after(0x00, Ime::Off), Ime::Off);
    assert_eq!(after(0x00, Ime::Arming), Ime::On);
    assert_eq!(after(0x00, Ime::On), Ime::On);
    assert_eq!(after(0xFB, Ime::Off), Ime::Arming);
    assert_eq!(after(0xFB, Ime::Arming), Ime::On);
    assert_eq!(after(0xFB, Ime::On), Ime::On);
    for ime in [Ime::Off, Ime::Arming, Ime::On] {
        assert_eq!(after(0xF3, ime), Ime::Off, "DI under {ime:?}");
        assert_eq!(after(0xD9, ime), Ime::On, "RETI under {ime:?}");
    }
}

#[test]
fn arming_lets_one_instruction_run_before_a_dispatch() {
    let first = step_with(0x00, at(Ime::Arming, Mode::Running), true);
    assert_eq!((first.state.pc, first.cycles), (0x0201, 1));
    let second = step_with(0x00, first.state, true);
    assert_eq!((second.state.pc, second.cycles), (0x0050, 5));
}

#[test]
fn halt_repeats_only_when_off_with_a_request() {
    let halt = |ime, request| {
        let stepped = step_with(0x76, at(ime, Mode::Running), request);
        assert_eq!((stepped.state.pc, stepped.cycles), (0x0201, 1));
        switch_and_mode(stepped)
    };
    assert_eq!(halt(Ime::Off, false), (Ime::Off, Mode::Halted));
    assert_eq!(halt(Ime::Off, true), (Ime::Off, Mode::Repeat));
    assert_eq!(halt(Ime::Arming, false), (Ime::On, Mode::Halted));
    assert_eq!(halt(Ime::On, false), (Ime::On, Mode::Halted));
}

#[test]
fn halt_in_repeat_stays_where_it_is() {
    let stepped = step_with(0x76, at(Ime::Off, Mode::Repeat), true);
    assert_eq!(stepped.state, at(Ime::Off, Mode::Repeat));
    assert_eq!((stepped.code, stepped.cycles), (0, 1));
}

#[test]
fn halted_without_a_request_idles() {
    for ime in [Ime::Off, Ime::Arming, Ime::On] {
        let before = at(ime, Mode::Halted);
        // An undefined opcode waits at PC, and is not run.
        let stepped = step_with(0xD3, before, false);
        assert_eq!(
            (stepped.code, stepped.cycles, stepped.state),
            (0, 1, before)
        );
    }
}

#[test]
fn halted_with_a_request_goes_on() {
    let off = step_with(0x3C, at(Ime::Off, Mode::Halted), true);
    assert_eq!((off.state.a, off.state.pc), (1, 0x0201));
    assert_eq!(switch_and_mode(off), (Ime::Off, Mode::Running));
    let arming = step_with(0x3C, at(Ime::Arming, Mode::Halted), true);
    assert_eq!((arming.state.a, arming.state.pc), (1, 0x0201));
    assert_eq!(switch_and_mode(arming), (Ime::On, Mode::Running));
    let on = step_with(0x3C, at(Ime::On, Mode::Halted), true);
    assert_eq!((on.state.a, on.state.pc), (0, 0x0050));
    assert_eq!(switch_and_mode(on), (Ime::Off, Mode::Running));
}

#[test]
fn dispatch_leaves_repeat() {
    let on = step_with(0x3C, at(Ime::On, Mode::Repeat), true);
    assert_eq!((on.state.a, on.state.pc), (0, 0x0050));
    assert_eq!(switch_and_mode(on), (Ime::Off, Mode::Running));
}

#[test]
fn stop_reads_two_bytes_and_costs_one_cycle() {
    let running = step_with(0x10, at(Ime::Arming, Mode::Running), false);
    assert_eq!((running.state.pc, running.cycles), (0x0202, 1));
    assert_eq!(switch_and_mode(running), (Ime::On, Mode::Stopped));
    let repeat = step_with(0x10, at(Ime::Off, Mode::Repeat), false);
    assert_eq!((repeat.state.pc, repeat.cycles), (0x0201, 1));
    assert_eq!(switch_and_mode(repeat), (Ime::Off, Mode::Stopped));
}

#[test]
fn each_request_has_its_vector_and_the_lowest_goes_first() {
    let vectors = [0x0040, 0x0048, 0x0050, 0x0058, 0x0060];
    for (k, vector) in vectors.into_iter().enumerate() {
        let requests = 0xFF << k;
        let mut memory = memory(&[(IE, &[0xFF]), (IF, &[requests])]);
        let stepped = step(at(Ime::On, Mode::Running), &mut memory);
        assert_eq!((stepped.cycles, stepped.state.pc), (5, vector));
        assert_eq!(memory[usize::from(IF)], requests & !(1 << k));
    }
}

#[test]
fn the_top_three_bits_request_nothing() {
    let mut memory = memory(&[(IE, &[0xFF]), (IF, &[0xE0])]);
    let stepped = step(at(Ime::On, Mode::Running), &mut memory);
    assert_eq!((stepped.cycles, stepped.state.pc), (1, 0x0201));
}
