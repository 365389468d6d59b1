//! The cases of document 01, "Cases to prove together", each as one step.

mod common;

use common::memory;
use trnadulek::{step, Cpu, Ime, Stepped};

/// One step of an instruction at PC that stores nothing.
fn stepped(before: Cpu, code: &[u8]) -> Stepped {
    let mut memory = memory(&[(before.pc.into(), code)]);
    let as_lent = memory.clone();
    let stepped = step(before, &mut memory).unwrap();
    assert_eq!(memory, as_lent);
    stepped
}

/// A and F after an instruction on them.
fn a_and_f(a: u8, f: u8, code: &[u8]) -> (u8, u8) {
    let before = Cpu {
        a,
        f,
        pc: 0x0100,
        ..Cpu::default()
    };
    let after = stepped(before, code).cpu;
    let pc = 0x0100 + code.len() as u16;
    assert_eq!(
        after,
        Cpu {
            a: after.a,
            f: after.f,
            pc,
            ..before
        }
    );
    (after.a, after.f)
}

#[test]
fn case_1_add() {
    assert_eq!(a_and_f(0x3A, 0x00, &[0xC6, 0xC6]), (0x00, 0xB0));
}

#[test]
fn case_2_adc() {
    assert_eq!(a_and_f(0x0F, 0x10, &[0xCE, 0x00]), (0x10, 0x20));
}

#[test]
fn case_3_sub() {
    assert_eq!(a_and_f(0x00, 0x00, &[0xD6, 0x01]), (0xFF, 0x70));
}

#[test]
fn case_4_sbc() {
    assert_eq!(a_and_f(0x3B, 0x10, &[0xDE, 0x2A]), (0x10, 0x40));
}

#[test]
fn case_5_inc() {
    assert_eq!(a_and_f(0xFF, 0x10, &[0x3C]), (0x00, 0xB0));
}

#[test]
fn case_6_add_hl() {
    let before = Cpu {
        h: 0x8A,
        l: 0x23,
        b: 0x06,
        c: 0x05,
        f: 0x80,
        ..Cpu::default()
    };
    let after = Cpu {
        h: 0x90,
        l: 0x28,
        f: 0xA0,
        pc: 1,
        ..before
    };
    assert_eq!(
        stepped(before, &[0x09]),
        Stepped {
            cpu: after,
            cycles: 2
        }
    );
}

#[test]
fn case_7_add_sp() {
    let before = Cpu {
        sp: 1,
        ..Cpu::default()
    };
    let after = Cpu {
        sp: 0,
        f: 0x30,
        pc: 2,
        ..before
    };
    assert_eq!(
        stepped(before, &[0xE8, 0xFF]),
        Stepped {
            cpu: after,
            cycles: 4
        }
    );
}

#[test]
fn case_8_daa_after_adding() {
    assert_eq!(a_and_f(0x9A, 0x00, &[0x27]), (0x00, 0x90));
}

#[test]
fn case_9_daa_after_subtracting() {
    assert_eq!(a_and_f(0xFF, 0x70, &[0x27]), (0x99, 0x50));
}

#[test]
fn case_10_pop_af() {
    let mut memory = memory(&[(0, &[0xF1]), (0xD000, &[0xFF, 0x12])]);
    let before = Cpu {
        sp: 0xD000,
        ..Cpu::default()
    };
    let after = Cpu {
        a: 0x12,
        f: 0xF0,
        sp: 0xD002,
        pc: 1,
        ..before
    };
    assert_eq!(
        step(before, &mut memory),
        Ok(Stepped {
            cpu: after,
            cycles: 3
        })
    );
}

#[test]
fn case_11_jr() {
    let before = Cpu {
        pc: 0xFFFE,
        ..Cpu::default()
    };
    let after = Cpu {
        pc: 0x0002,
        ..before
    };
    assert_eq!(
        stepped(before, &[0x18, 0x02]),
        Stepped {
            cpu: after,
            cycles: 3
        }
    );
}

#[test]
fn case_12_dispatch() {
    let mut memory = memory(&[(0xFFFF, &[5]), (0xFF0F, &[6])]);
    let mut expected = memory.clone();
    expected[0xFF0F] = 2;
    expected[0xFFFC..0xFFFE].copy_from_slice(&[0x23, 0xC1]);
    let before = Cpu {
        ime: Ime::On,
        pc: 0xC123,
        sp: 0xFFFE,
        ..Cpu::default()
    };
    let after = Cpu {
        ime: Ime::Off,
        pc: 0x0050,
        sp: 0xFFFC,
        ..before
    };
    assert_eq!(
        step(before, &mut memory),
        Ok(Stepped {
            cpu: after,
            cycles: 5
        })
    );
    assert_eq!(memory, expected);
}
