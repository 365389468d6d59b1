//! The two editions of a listing, as M-102 has them: what the old one spells
//! otherwise, that it parts from the new one nowhere else, and the numbers that
//! are no edition's.

use second::{list, listing};
use std::collections::BTreeMap;

const OLD: u32 = 1;
const NEW: u32 = 2;

/// Numbers that are no edition's, some of which are 1 or 2 in their low bits.
const OTHERS: [u32; 12] = [
    0,
    3,
    4,
    255,
    256,
    257,
    258,
    65_537,
    65_538,
    1 << 31,
    u32::MAX - 1,
    u32::MAX,
];

/// What stands in an output before something is listed to it.
const BEFORE: u8 = 0xA5;

/// The opcodes that the remarks of documents 002 to 004 have as LDIO, LDI and LDD.
const EIGHT: [u8; 8] = [0x22, 0x2A, 0x32, 0x3A, 0xE0, 0xE2, 0xF0, 0xF2];

/// A part from $0150 on gives this text in the old edition, and that in the new.
fn lists(part: &[u8], old: &str, new: &str) {
    assert_eq!(listing(part, 0x0150, OLD), Ok(format!("{old}\n")));
    assert_eq!(listing(part, 0x0150, NEW), Ok(format!("{new}\n")));
}

#[test]
fn the_loads_that_move_hl() {
    lists(&[0x22], "0150 22 LDI [HL],A", "0150 22 LD [HLI],A");
    lists(&[0x2A], "0150 2A LDI A,[HL]", "0150 2A LD A,[HLI]");
    lists(&[0x32], "0150 32 LDD [HL],A", "0150 32 LD [HLD],A");
    lists(&[0x3A], "0150 3A LDD A,[HL]", "0150 3A LD A,[HLD]");
}

#[test]
fn the_loads_from_ff00_on() {
    let old = "0150 E080 LDIO [$FF80],A";
    lists(&[0xE0, 0x80], old, "0150 E080 LDH [$FF80],A");
    let old = "0150 F00F LDIO A,[$FF0F]";
    lists(&[0xF0, 0x0F], old, "0150 F00F LDH A,[$FF0F]");
    lists(&[0xE2], "0150 E2 LDIO [C],A", "0150 E2 LDH [C],A");
    lists(&[0xF2], "0150 F2 LDIO A,[C]", "0150 F2 LDH A,[C]");
}

/// A cut one is data in both, and so it has no name that could be old.
#[test]
fn cut_instructions_are_data_in_both() {
    for opcode in [0xE0, 0xF0] {
        let data = format!("0150 {opcode:02X} DB ${opcode:02X}");
        lists(&[opcode], &data, &data);
    }
}

/// Parts that begin with each opcode and each prefixed one.
fn parts() -> Vec<Vec<u8>> {
    let plain = (0..=255).map(|opcode| vec![opcode, 0x34, 0x12]);
    let prefixed = (0..=255).map(|second| vec![0xCB, second, 0x00]);
    let stops = [vec![0x10, 0x00], vec![0x10]];
    plain.chain(prefixed).chain(stops).collect()
}

fn first_line(part: &[u8], edition: u32) -> String {
    let text = listing(part, 0x0150, edition).expect("an edition");
    text.split_inclusive('\n').next().expect("a line").into()
}

#[test]
fn nothing_else_differs() {
    let mut differing = Vec::new();
    for part in parts() {
        if first_line(&part, OLD) != first_line(&part, NEW) {
            differing.push(part[0]);
        }
    }
    assert_eq!(differing, EIGHT);
}

/// Over both editions, and so also where one line is old and the other new.
#[test]
fn a_spelling_stands_for_its_bytes_alone() {
    let mut bytes_of = BTreeMap::new();
    for part in parts() {
        for edition in [OLD, NEW] {
            let line = first_line(&part, edition);
            let columns: Vec<&str> = line.splitn(3, ' ').collect();
            let bytes = columns[1].to_string();
            let before = bytes_of.insert(columns[2].to_string(), bytes.clone());
            assert!(before.map_or(true, |before| before == bytes), "{line}");
        }
    }
    // 500 instructions, 11 undefined bytes, $10 as data, and 8 old spellings.
    assert_eq!(bytes_of.len(), 520);
}

/// The old text of $E2 is one letter longer than the new one.
#[test]
fn room_is_that_of_the_edition() {
    for (edition, text) in [(OLD, "0150 E2 LDIO [C],A\n"), (NEW, "0150 E2 LDH [C],A\n")] {
        let mut out = vec![BEFORE; text.len()];
        assert_eq!(list(&[0xE2], 0x0150, edition, &mut out), (0, text.len()));
        assert_eq!(out, text.as_bytes());
        let mut short = vec![BEFORE; text.len() - 1];
        assert_eq!(list(&[0xE2], 0x0150, edition, &mut short), (10, 0));
        assert_eq!(short, vec![BEFORE; text.len() - 1]);
    }
}

/// It comes before 10: whatever the part is, and with no room too.
#[test]
fn another_number_is_refused_before_anything_else() {
    for edition in OTHERS {
        for part in [&[][..], &[0x22], &[0x20, 0xF8, 0xD3]] {
            assert_eq!(listing(part, 0x0150, edition), Err(11));
            for room in [0, 1, 19, 100] {
                let mut out = vec![BEFORE; room];
                assert_eq!(list(part, 0x0150, edition, &mut out), (11, 0));
                assert_eq!(out, vec![BEFORE; room]);
            }
        }
    }
}
