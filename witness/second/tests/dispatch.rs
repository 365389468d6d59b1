//! A dispatch whose own stores land on IE or IF (document 02, M-100): the high byte
//! of PC goes first, then the request is looked for, then the low byte follows.

mod common;

use common::{changed, memory, IE, IF};
use second::{step, Ime, Mode, State};

/// Where the machine is, and what IE and IF hold.
struct Before {
    sp: u16,
    pc: u16,
    enabled: u8,
    raised: u8,
}

/// PC after the dispatch, and the bytes that it has changed.
#[derive(PartialEq, Debug)]
struct After {
    pc: u16,
    changed: Vec<(u16, u8)>,
}

/// A dispatch from every mode that has one. All but PC and the memory is the same
/// wherever the stores land.
fn dispatched(before: Before) -> After {
    let start = memory(&[(IE, &[before.enabled]), (IF, &[before.raised])]);
    let from = |mode| {
        let state = State {
            sp: before.sp,
            pc: before.pc,
            ime: Ime::On,
            mode,
            ..State::default()
        };
        let mut memory = start.clone();
        let stepped = step(state, &mut memory);
        let rest = State {
            pc: stepped.state.pc,
            sp: before.sp.wrapping_sub(2),
            ..State::default()
        };
        assert_eq!((stepped.code, stepped.cycles, stepped.state), (0, 5, rest));
        let byte = |address| (address, memory[usize::from(address)]);
        After {
            pc: stepped.state.pc,
            changed: changed(&start, &memory).into_iter().map(byte).collect(),
        }
    };
    let running = from(Mode::Running);
    assert_eq!(running, from(Mode::Repeat));
    assert_eq!(running, from(Mode::Halted));
    running
}

fn after(pc: u16, changed: &[(u16, u8)]) -> After {
    After {
        pc,
        changed: changed.to_vec(),
    }
}

/// SP 0, IE $04 and IF $0C: request 2 is due, and the high byte of PC becomes IE.
fn over_ie(pc: u16) -> After {
    dispatched(Before {
        sp: 0x0000,
        pc,
        enabled: 0x04,
        raised: 0x0C,
    })
}

#[test]
fn a_high_byte_over_ie_may_keep_the_request() {
    let kept = after(0x0050, &[(IF, 0x08), (0xFFFE, 0x50)]);
    assert_eq!(over_ie(0x0450), kept);
    let beside_others = after(0x0050, &[(IF, 0x08), (0xFFFE, 0x50), (IE, 0xF7)]);
    assert_eq!(over_ie(0xF750), beside_others);
}

#[test]
fn a_high_byte_over_ie_may_change_the_request() {
    // Request 3 was raised and not enabled.
    let changed = after(0x0058, &[(IF, 0x04), (0xFFFE, 0x50), (IE, 0x08)]);
    assert_eq!(over_ie(0x0850), changed);
}

#[test]
fn a_high_byte_over_ie_may_cancel_the_dispatch() {
    let cancelled = after(0x0000, &[(0xFFFE, 0x50), (IE, 0x20)]);
    assert_eq!(over_ie(0x2050), cancelled);
    let by_all_other_bits = after(0x0000, &[(0xFFFE, 0x50), (IE, 0xF3)]);
    assert_eq!(over_ie(0xF350), by_all_other_bits);
}

/// SP $FF10: the high byte of PC becomes IF, and the low byte goes below it.
fn over_if(enabled: u8, raised: u8, pc: u16) -> After {
    dispatched(Before {
        sp: 0xFF10,
        pc,
        enabled,
        raised,
    })
}

#[test]
fn a_high_byte_over_if_may_keep_the_request() {
    // The bit is cleared in what was stored there.
    let kept = after(0x0060, &[(0xFF0E, 0x34), (IF, 0x06)]);
    assert_eq!(over_if(0x10, 0x10, 0x1634), kept);
}

#[test]
fn a_high_byte_over_if_may_change_the_request() {
    let lowest = after(0x0048, &[(0xFF0E, 0x34), (IF, 0x14)]);
    assert_eq!(over_if(0x1F, 0x01, 0x1634), lowest);
}

#[test]
fn a_high_byte_over_if_may_cancel_the_dispatch() {
    let cancelled = after(0x0000, &[(0xFF0E, 0x34), (IF, 0xE0)]);
    assert_eq!(over_if(0xFF, 0x01, 0xE034), cancelled);
    let not_enabled = after(0x0000, &[(0xFF0E, 0x34), (IF, 0x1E)]);
    assert_eq!(over_if(0x01, 0x01, 0x1E34), not_enabled);
}

#[test]
fn a_low_byte_over_if_stays_whole() {
    // The bit was cleared before it, in the byte that it goes over.
    let over = dispatched(Before {
        sp: 0xFF11,
        pc: 0x12AB,
        enabled: 0x08,
        raised: 0x18,
    });
    assert_eq!(over, after(0x0058, &[(IF, 0xAB), (0xFF10, 0x12)]));
}

#[test]
fn a_low_byte_over_ie_comes_too_late_to_matter() {
    let over = dispatched(Before {
        sp: 0x0001,
        pc: 0xC100,
        enabled: 0x02,
        raised: 0x03,
    });
    let wanted = after(0x0048, &[(0x0000, 0xC1), (IF, 0x01), (IE, 0x00)]);
    assert_eq!(over, wanted);
}

#[test]
fn stores_beside_ie_and_if_change_no_request() {
    let beside = |sp| Before {
        sp,
        pc: 0x1234,
        enabled: 0x01,
        raised: 0xE3,
    };
    let stacks = [0x0002, 0xFF0F, 0xFF12, 0xFFFF];
    let places = [
        [(0x0000, 0x34), (0x0001, 0x12), (IF, 0xE2)],
        [(0xFF0D, 0x34), (0xFF0E, 0x12), (IF, 0xE2)],
        [(IF, 0xE2), (0xFF10, 0x34), (0xFF11, 0x12)],
        [(IF, 0xE2), (0xFFFD, 0x34), (0xFFFE, 0x12)],
    ];
    for (sp, changed) in stacks.into_iter().zip(places) {
        assert_eq!(dispatched(beside(sp)), after(0x0040, &changed), "{sp:04X}");
    }
}
