//! Text as bytes: lines that document 02 and the instruction reference give, the refusals, and what
//! stays.

use std::error::Error;

use random::Random;
use trnadulek::{assemble, assembled, listing, Edition, Fault, Refusal};

/// The bytes with room for them, exactly and more.
#[track_caller]
fn is_assembled(text: &str, first: u16, bytes: &[u8]) {
    assert_eq!(assembled(text.as_bytes(), first).as_deref(), Ok(bytes));
    for room in [bytes.len(), bytes.len() + 1, text.len()] {
        let mut out = vec![0xEE; room];
        let length = assemble(text.as_bytes(), first, &mut out);
        assert_eq!(length, Ok(bytes.len()));
        assert_eq!(out[..bytes.len()], *bytes);
        assert!(out[bytes.len()..].iter().all(|byte| *byte == 0xEE));
    }
}

/// Nothing but the fault, however much room there is.
#[track_caller]
fn is_refused(text: &[u8], first: u16, line: usize, refusal: Refusal) {
    let fault = Fault { line, refusal };
    assert_eq!(assembled(text, first), Err(fault));
    for room in [text.len(), text.len() + 9] {
        let mut out = vec![0xEE; room];
        assert_eq!(assemble(text, first, &mut out), Err(fault));
        assert_eq!(out, vec![0xEE; room]);
    }
}

#[test]
fn the_lines_of_document_02() {
    is_assembled("JR NZ,$014A\nDB $D3\n", 0x0150, &[0x20, 0xF8, 0xD3]);
}

#[test]
fn an_empty_text_has_no_bytes() {
    is_assembled("", 0x0150, &[]);
    assert_eq!(assemble(&[], 0xFFFF, &mut []), Ok(0));
}

#[test]
fn the_adding_routine_in_both_editions() {
    let routine = [0xA7, 0x1A, 0x8E, 0x27, 0x22, 0x13, 0x05, 0x20, 0xF8, 0xC9];
    let text = "\
AND A,A
LD A,[DE]
ADC A,[HL]
DAA
LD [HLI],A
INC DE
DEC B
JR NZ,$0151
RET
";
    is_assembled(text, 0x0150, &routine);
    is_assembled(&text.replace("LD [HLI],A", "LDI [HL],A"), 0x0150, &routine);
}

/// What editions 002 to 004 of the reference call these, and what 001 does; each line is of either.
#[test]
fn eight_opcodes_have_two_spellings() {
    is_assembled(
        "LDI [HL],A\nLDI A,[HL]\nLDD [HL],A\nLDD A,[HL]\n",
        0,
        &[0x22, 0x2A, 0x32, 0x3A],
    );
    is_assembled(
        "LD [HLI],A\nLD A,[HLI]\nLD [HLD],A\nLD A,[HLD]\n",
        0,
        &[0x22, 0x2A, 0x32, 0x3A],
    );
    is_assembled(
        "LDIO [$FF80],A\nLDH [$FF80],A\nLDH A,[$FF44]\nLDIO A,[$FF44]\n",
        0,
        &[0xE0, 0x80, 0xE0, 0x80, 0xF0, 0x44, 0xF0, 0x44],
    );
    is_assembled(
        "LDIO [C],A\nLDH [C],A\nLDH A,[C]\nLDIO A,[C]\n",
        0,
        &[0xE2, 0xE2, 0xF2, 0xF2],
    );
}

#[test]
fn constants_stand_for_numbers() {
    is_assembled("BIT 3+4,A\nRST 8\n", 0, &[0xCB, 0x7F, 0xCF]);
    is_assembled("LD A,-5+3\n", 0, &[0x3E, 0xFE]);
    is_assembled("LD A,10-(3-2)\n", 0, &[0x3E, 0x09]);
    is_assembled("LD A,-(5+3)\n", 0, &[0x3E, 0xF8]);
    is_assembled("LD HL,SP+-$05\n", 0, &[0xF8, 0xFB]);
    is_assembled("LD HL,SP+5-3\n", 0, &[0xF8, 0x02]);
    is_assembled("LD A,($12)\n", 0, &[0x3E, 0x12]);
    is_assembled("LD A,[$12]\n", 0, &[0xFA, 0x12, 0x00]);
    is_assembled("LD A,[$FF80]\n", 0, &[0xFA, 0x80, 0xFF]);
    is_assembled("LD A,0000000000000000000000000007\n", 0, &[0x3E, 0x07]);
    is_assembled("LD A,65535+65535-65535-65534\n", 0, &[0x3E, 0x01]);
}

#[test]
fn the_ends_of_each_range() {
    is_assembled("LD A,-128\nLD A,255\n", 0, &[0x3E, 0x80, 0x3E, 0xFF]);
    is_assembled("DB -128\nDB 255\n", 0, &[0x80, 0xFF]);
    is_assembled(
        "LD HL,-32768\nJP 65535\n",
        0,
        &[0x21, 0x00, 0x80, 0xC3, 0xFF, 0xFF],
    );
    is_assembled("ADD SP,-128\nADD SP,127\n", 0, &[0xE8, 0x80, 0xE8, 0x7F]);
    is_assembled("LDH [-128],A\n", 0, &[0xE0, 0x80]);
    is_assembled("LDH A,[$FF00]\nLDH A,[-1]\n", 0, &[0xF0, 0x00, 0xF0, 0xFF]);
    for (bit, opcode) in (0..8).zip((0x40..).step_by(8)) {
        is_assembled(&format!("BIT {bit},B\n"), 0, &[0xCB, opcode]);
    }
    for (vector, opcode) in (0..64).step_by(8).zip((0xC7..=0xFF).step_by(8)) {
        is_assembled(&format!("RST {vector}\n"), 0, &[opcode]);
    }
}

#[test]
fn addresses_count_modulo_65536() {
    is_assembled("JR $0002\n", 0xFFFE, &[0x18, 0x02]);
    is_assembled("JR -126\n", 0x0000, &[0x18, 0x80]);
    is_assembled(
        "JP $1234\nJR $0001\n",
        0xFFFE,
        &[0xC3, 0x34, 0x12, 0x18, 0xFE],
    );
    is_refused(b"JR $0080\n", 0xFFFE, 1, Refusal::Range);
    is_refused(b"JR $FF81\n", 0x0000, 1, Refusal::Range);
}

#[test]
fn lines_of_no_form() {
    for line in [
        "",
        " ",
        "nop",
        "NOP ",
        " NOP",
        "NOP\r",
        "NOP;",
        "NOP ; wait",
        "LOOP:",
        "0150 00 NOP",
        "LD A, 5",
        "LD  A,5",
        "LD\tA,5",
        "LD A,+5",
        "LD A,--5",
        "LD A,5+-3",
        "LD A,$",
        "LD A,0x10",
        "LD A,%1",
        "LD A,()",
        "LD A,(5",
        "LD A,5)",
        "LD A,5)+(5",
        "LD A,$ff",
        "LD A,5 + 3",
        "LD A,5*3",
        "OR B",
        "CPL A",
        "LD [HL+],A",
        "LD [$FF00+C],A",
        "JR !Z,0",
        "LD HL,SP-5",
        "DB 1,2",
        "DB",
        "STOP 0",
    ] {
        is_refused(format!("{line}\n").as_bytes(), 0, 1, Refusal::Line);
        let third = format!("NOP\nSTOP\n{line}\nNOP\n");
        is_refused(third.as_bytes(), 0, 3, Refusal::Line);
    }
    is_refused(b"NOP\xFF\n", 0, 1, Refusal::Line);
    is_refused("NOP\nLD A,\u{FF15}\n".as_bytes(), 0, 2, Refusal::Line);
    is_refused(b"NO\0P\n", 0, 1, Refusal::Line);
}

#[test]
fn a_last_line_without_its_line_feed() {
    is_refused(b"NOP", 0, 1, Refusal::Line);
    is_refused(b"NOP\nLD A,256", 0, 2, Refusal::Line);
}

fn nested(depth: usize) -> String {
    format!("LD A,{}5{}\n", "(".repeat(depth), ")".repeat(depth))
}

#[test]
fn brackets_are_open_16_deep() {
    is_assembled(&nested(16), 0, &[0x3E, 0x05]);
    is_refused(nested(17).as_bytes(), 0, 1, Refusal::Nesting);
    let beside = nested(16).replace('\n', "+") + &nested(16)[5..];
    is_assembled(&beside, 0, &[0x3E, 0x0A]);
    // A form is judged for any depth, and comes first; a depth comes before a value.
    let unclosed = nested(1_000).replacen(')', "", 1);
    is_refused(unclosed.as_bytes(), 0, 1, Refusal::Line);
    let large = nested(17).replace('5', "65536");
    is_refused(large.as_bytes(), 0, 1, Refusal::Nesting);
}

#[test]
fn what_is_out_of_range() {
    for line in [
        "LD A,256",
        "LD A,-129",
        "DB 256",
        "LD HL,-32769",
        "LD HL,65535+1",
        "ADD SP,128",
        "LD HL,SP+-129",
        "BIT 8,A",
        "BIT -1,A",
        "RST 1",
        "RST 64",
        "LDH [$80],A",
        "LDH A,[$FEFF]",
        "JR $01D2",
        "JR $00D1",
        "JR -65200",
        "LD HL,65536",
        "LD A,65536-65530",
        "LD A,$100000000000000005",
    ] {
        let text = format!("{line}\n");
        is_refused(text.as_bytes(), 0x0150, 1, Refusal::Range);
    }
}

/// The first line whose bytes do not fit, unless a line before it is at fault otherwise.
#[test]
fn the_room() {
    let given: [(&[u8], usize, usize, Refusal); 6] = [
        (b"NOP\n", 0, 1, Refusal::Room),
        (b"NOP\nJP 0\nNOP\n", 3, 2, Refusal::Room),
        (b"NOP\nJP 0\nNOP\n", 4, 3, Refusal::Room),
        (b"NOP\nnop\n", 0, 1, Refusal::Room),
        (b"NOP\nnop\n", 1, 2, Refusal::Line),
        (b"LD A,256\n", 0, 1, Refusal::Range),
    ];
    for (text, room, line, refusal) in given {
        let mut out = vec![0xEE; room];
        let refused = assemble(text, 0, &mut out);
        assert_eq!(refused, Err(Fault { line, refusal }));
        assert_eq!(out, vec![0xEE; room]);
    }
}

/// The shortest lines for one, two and three bytes.
#[test]
fn the_text_s_own_length_is_room_enough() {
    is_assembled("DI\n", 0, &[0xF3]);
    is_assembled("JR 2\n", 0, &[0x18, 0x00]);
    is_assembled("JP 0\n", 0, &[0xC3, 0x00, 0x00]);
    let text = "JP 0\n".repeat(30_000);
    assert_eq!(
        assembled(text.as_bytes(), 0).map(|bytes| bytes.len()),
        Ok(90_000)
    );
}

/// The spellings of a listing, of either edition, give its bytes back.
#[test]
fn there_and_back() {
    let mut random = Random::new(103, "assembling");
    for (first, length) in [(0x0150, 0), (0, 1), (0xFFFF, 700), (0xC0DE, 100_000)] {
        let part = random.bytes(length);
        for edition in Edition::ALL {
            let text = listing(&part, first, edition);
            let spellings = text.lines().map(|line| line.splitn(3, ' ').nth(2).unwrap());
            let spellings: String = spellings.map(|line| format!("{line}\n")).collect();
            assert_eq!(assembled(spellings.as_bytes(), first), Ok(part.clone()));
        }
    }
}

#[test]
fn a_fault_is_an_error_with_its_line() {
    let fault = assembled(b"NOP\nNOP", 0).unwrap_err();
    let error: Box<dyn Error> = fault.into();
    assert_eq!(error.to_string(), "line 2: a line of no such form");
    let refusal = error.source().unwrap();
    assert_eq!(refusal.to_string(), "a line of no such form");
}
