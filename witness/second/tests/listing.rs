//! The listing: M-101's example, how each of its points is read, and every
//! spelling against the headings of the instruction reference. All of it is the
//! new edition's; `editions.rs` has what the old one spells otherwise.

use second::{length, list};
use std::collections::BTreeSet;

const NEW: u32 = 2;

/// What stands in an output before something is listed to it.
const BEFORE: u8 = 0xA5;

/// The bytes that begin no instruction.
const UNDEFINED: [u8; 11] = [
    0xD3, 0xDB, 0xDD, 0xE3, 0xE4, 0xEB, 0xEC, 0xED, 0xF4, 0xFC, 0xFD,
];

fn listing(part: &[u8], first: u16) -> String {
    second::listing(part, first, NEW).expect("an edition")
}

/// A part from $0150 on gives these lines, each with a line feed after it.
fn lists(part: &[u8], lines: &[&str]) {
    lists_from(0x0150, part, lines);
}

fn lists_from(first: u16, part: &[u8], lines: &[&str]) {
    let text: String = lines.iter().map(|line| format!("{line}\n")).collect();
    assert_eq!(listing(part, first), text);
}

/// The columns of a line: address, bytes and spelling, which may hold spaces.
fn columns(line: &str) -> [&str; 3] {
    let columns: Vec<&str> = line.splitn(3, ' ').collect();
    columns.try_into().expect("three columns")
}

/// A part of so many bytes, of every value and in no order.
fn jumbled(size: usize) -> Vec<u8> {
    let number = |n: usize| (n as u32).wrapping_mul(0x9E37_79B1) >> 11;
    (0..size).map(|n| number(n) as u8).collect()
}

#[test]
fn the_example() {
    let lines = ["0150 20F8 JR NZ,$014A", "0152 D3 DB $D3"];
    lists(&[0x20, 0xF8, 0xD3], &lines);
}

#[test]
fn the_destination_a_is_written() {
    lists(&[0x80], &["0150 80 ADD A,B"]);
    lists(&[0xD6, 0x05], &["0150 D605 SUB A,$05"]);
    lists(&[0xBE], &["0150 BE CP A,[HL]"]);
}

#[test]
fn what_document_001_misprints_is_spelled_apart() {
    lists(&[0x22], &["0150 22 LD [HLI],A"]);
    lists(&[0x2A], &["0150 2A LD A,[HLI]"]);
    lists(&[0x32], &["0150 32 LD [HLD],A"]);
    lists(&[0x3A], &["0150 3A LD A,[HLD]"]);
    lists(&[0x77], &["0150 77 LD [HL],A"]);
    lists(&[0x7E], &["0150 7E LD A,[HL]"]);
}

#[test]
fn of_two_spellings_the_heading_s_is_taken() {
    lists(&[0x2F], &["0150 2F CPL"]);
    lists(&[0xE9], &["0150 E9 JP HL"]);
    lists(&[0xE2], &["0150 E2 LDH [C],A"]);
    lists(&[0xF2], &["0150 F2 LDH A,[C]"]);
}

#[test]
fn what_document_001_lost_is_spelled_as_its_overview_has_it() {
    lists(&[0xCB, 0x18], &["0150 CB18 RR B"]);
    lists(&[0x1F], &["0150 1F RRA"]);
    lists(&[0xCB, 0x0F], &["0150 CB0F RRC A"]);
    lists(&[0xCB, 0x26], &["0150 CB26 SLA [HL]"]);
    lists(&[0xCB, 0x29], &["0150 CB29 SRA C"]);
    lists(&[0xCB, 0x3E], &["0150 CB3E SRL [HL]"]);
    lists(&[0xCB, 0x37], &["0150 CB37 SWAP A"]);
    lists(&[0x96], &["0150 96 SUB A,[HL]"]);
}

#[test]
fn constants_have_two_digits_or_four() {
    lists(&[0x3E, 0x0A], &["0150 3E0A LD A,$0A"]);
    lists(&[0x36, 0xFF], &["0150 36FF LD [HL],$FF"]);
    lists(&[0xCF], &["0150 CF RST $08"]);
    lists(&[0xC7], &["0150 C7 RST $00"]);
    lists(&[0xFF], &["0150 FF RST $38"]);
    lists(&[0x01, 0x0B, 0x00], &["0150 010B00 LD BC,$000B"]);
    lists(&[0x08, 0xCD, 0xAB], &["0150 08CDAB LD [$ABCD],SP"]);
    lists(&[0xC3, 0x50, 0x01], &["0150 C35001 JP $0150"]);
    lists(&[0xCC, 0xFF, 0x00], &["0150 CCFF00 CALL Z,$00FF"]);
    lists(&[0xEA, 0x80, 0xFF], &["0150 EA80FF LD [$FF80],A"]);
    lists(&[0xE0, 0x05], &["0150 E005 LDH [$FF05],A"]);
    lists(&[0xF0, 0x80], &["0150 F080 LDH A,[$FF80]"]);
}

#[test]
fn bit_numbers_are_one_decimal_digit() {
    lists(&[0xCB, 0x40], &["0150 CB40 BIT 0,B"]);
    lists(&[0xCB, 0xBE], &["0150 CBBE RES 7,[HL]"]);
    lists(&[0xCB, 0xEF], &["0150 CBEF SET 5,A"]);
}

#[test]
fn an_offset_has_a_sign_if_it_is_negative() {
    lists(&[0xE8, 0xFB], &["0150 E8FB ADD SP,-$05"]);
    lists(&[0xE8, 0x05], &["0150 E805 ADD SP,$05"]);
    lists(&[0xE8, 0x80], &["0150 E880 ADD SP,-$80"]);
    lists(&[0xE8, 0x7F], &["0150 E87F ADD SP,$7F"]);
    lists(&[0xF8, 0xFB], &["0150 F8FB LD HL,SP+-$05"]);
    lists(&[0xF8, 0x05], &["0150 F805 LD HL,SP+$05"]);
    lists(&[0xF8, 0x80], &["0150 F880 LD HL,SP+-$80"]);
    lists(&[0xF8, 0x00], &["0150 F800 LD HL,SP+$00"]);
    lists(&[0xF8, 0xFF], &["0150 F8FF LD HL,SP+-$01"]);
}

#[test]
fn jr_shows_its_target() {
    lists(&[0x18, 0x00], &["0150 1800 JR $0152"]);
    lists(&[0x18, 0xFE], &["0150 18FE JR $0150"]);
    lists(&[0x28, 0x7F], &["0150 287F JR Z,$01D1"]);
    lists(&[0x30, 0x80], &["0150 3080 JR NC,$00D2"]);
    lists(&[0x38, 0x01], &["0150 3801 JR C,$0153"]);
}

#[test]
fn ten_is_stop_only_before_zero() {
    lists(&[0x10, 0x00], &["0150 1000 STOP"]);
    lists(&[0x10], &["0150 10 DB $10"]);
    lists(&[0x10, 0x3C], &["0150 10 DB $10", "0151 3C INC A"]);
    let lines = ["0150 10 DB $10", "0151 1000 STOP", "0153 00 NOP"];
    lists(&[0x10, 0x10, 0x00, 0x00], &lines);
    lists(&[0x10, 0xD3], &["0150 10 DB $10", "0151 D3 DB $D3"]);
}

#[test]
fn undefined_bytes_are_data_and_reading_goes_on() {
    for byte in UNDEFINED {
        let data = format!("0150 {byte:02X} DB ${byte:02X}");
        lists(&[byte], &[&data]);
        lists(&[byte, 0x76], &[&data, "0151 76 HALT"]);
    }
}

#[test]
fn of_a_cut_instruction_the_first_byte_is_data_and_the_rest_is_read_afresh() {
    lists(&[0xC3, 0x00], &["0150 C3 DB $C3", "0151 00 NOP"]);
    lists(&[0xC3], &["0150 C3 DB $C3"]);
    lists(&[0x3E], &["0150 3E DB $3E"]);
    lists(&[0xCB], &["0150 CB DB $CB"]);
    lists(&[0x18], &["0150 18 DB $18"]);
    lists(&[0xCD, 0xCD], &["0150 CD DB $CD", "0151 CD DB $CD"]);
    lists(&[0xCD, 0xCB], &["0150 CD DB $CD", "0151 CB DB $CB"]);
    lists(&[0x00, 0xE0], &["0150 00 NOP", "0151 E0 DB $E0"]);
}

/// The end that cuts is the part's and not the memory's.
#[test]
fn an_instruction_that_goes_on_from_ffff_is_not_cut() {
    lists_from(0xFFFF, &[0xC3, 0x34, 0x12], &["FFFF C33412 JP $1234"]);
    lists_from(0xFFFE, &[0xC3, 0x34, 0x12], &["FFFE C33412 JP $1234"]);
    lists_from(0xFFFF, &[0xCB, 0x7C], &["FFFF CB7C BIT 7,H"]);
    lists_from(0xFFFF, &[0x10, 0x00], &["FFFF 1000 STOP"]);
    let lines = ["FFFF C3 DB $C3", "0000 34 INC [HL]"];
    lists_from(0xFFFF, &[0xC3, 0x34], &lines);
}

#[test]
fn addresses_and_targets_count_modulo_65_536() {
    let lines = ["FFFE 00 NOP", "FFFF 00 NOP", "0000 00 NOP"];
    lists_from(0xFFFE, &[0x00, 0x00, 0x00], &lines);
    lists_from(0xFFFE, &[0x18, 0x05], &["FFFE 1805 JR $0005"]);
    lists_from(0xFFFF, &[0x20, 0x00], &["FFFF 2000 JR NZ,$0001"]);
    lists_from(0x0000, &[0x18, 0x80], &["0000 1880 JR $FF82"]);
    lists_from(0x0001, &[0x38, 0xF0], &["0001 38F0 JR C,$FFF3"]);
}

#[test]
fn a_part_longer_than_the_memory_is_listed_whole() {
    let text = listing(&[0x00; 65_539], 0xFFFF);
    let lines: Vec<&str> = text.lines().collect();
    assert_eq!(lines.len(), 65_539);
    let ends = [lines[0], lines[1], lines[65_536], lines[65_538]];
    assert_eq!(
        ends,
        ["FFFF 00 NOP", "0000 00 NOP", "FFFF 00 NOP", "0001 00 NOP"]
    );
}

/// Each byte stands in one line, in its place, under its address.
#[test]
fn every_byte_appears_once() {
    let part = jumbled(70_000);
    let text = listing(&part, 0x8000);
    let mut shown = String::new();
    for line in text.lines() {
        let [address, bytes, _] = columns(line);
        let place = 0x8000 + shown.len() / 2;
        assert_eq!(address, format!("{:04X}", place % 65_536));
        shown += bytes;
    }
    let all: String = part.iter().map(|byte| format!("{byte:02X}")).collect();
    assert_eq!(shown, all);
}

#[test]
fn lines_hold_capitals_and_single_spaces_and_end_in_a_line_feed() {
    let text = listing(&jumbled(10_000), 0x0000);
    assert!(text.ends_with('\n') && !text.contains("\n\n"));
    for line in text.lines() {
        let plain = |letter: char| {
            letter.is_ascii_uppercase() || letter.is_ascii_digit() || " $,+-[]".contains(letter)
        };
        assert!(line.chars().all(plain), "{line:?}");
        assert!(!line.contains("  ") && !line.ends_with(' '), "{line:?}");
        assert!(!line.contains(", "), "{line:?}");
        assert!(columns(line)[2].matches(' ').count() <= 1, "{line:?}");
    }
}

/// The room is exactly enough, or more, and then the bytes past the text stay.
#[test]
fn room_of_exactly_the_length_is_enough() {
    let part = [0x20, 0xF8, 0xD3];
    let text = "0150 20F8 JR NZ,$014A\n0152 D3 DB $D3\n";
    for more in [0, 1, 100] {
        let mut out = vec![BEFORE; text.len() + more];
        assert_eq!(list(&part, 0x0150, NEW, &mut out), (0, text.len()));
        assert_eq!(&out[..text.len()], text.as_bytes());
        assert_eq!(&out[text.len()..], vec![BEFORE; more]);
    }
}

#[test]
fn without_room_nothing_is_written() {
    let part = [0x20, 0xF8, 0xD3];
    // One line would fit, or all but the last line feed.
    for room in [0, 1, 22, 36] {
        let mut out = vec![BEFORE; room];
        assert_eq!(list(&part, 0x0150, NEW, &mut out), (10, 0));
        assert_eq!(out, vec![BEFORE; room]);
    }
}

#[test]
fn an_empty_part_has_an_empty_listing() {
    assert_eq!(listing(&[], 0x0150), "");
    assert_eq!(list(&[], 0x0150, NEW, &mut []), (0, 0));
    let mut out = [BEFORE; 5];
    assert_eq!(list(&[], 0xFFFF, NEW, &mut out), (0, 0));
    assert_eq!(out, [BEFORE; 5]);
}

/// The headings of the instruction reference, in the order of document 004, which
/// lost none of them.
const HEADINGS: &str = "\
ADC A,r8|ADC A,[HL]|ADC A,n8|ADD A,r8|ADD A,[HL]|ADD A,n8|AND A,r8|AND A,[HL]|AND A,n8|CP A,r8|\
CP A,[HL]|CP A,n8|DEC r8|DEC [HL]|INC r8|INC [HL]|OR A,r8|OR A,[HL]|OR A,n8|SBC A,r8|SBC A,[HL]|\
SBC A,n8|SUB A,r8|SUB A,[HL]|SUB A,n8|XOR A,r8|XOR A,[HL]|XOR A,n8|ADD HL,r16|DEC r16|INC r16|\
BIT u3,r8|BIT u3,[HL]|RES u3,r8|RES u3,[HL]|SET u3,r8|SET u3,[HL]|SWAP r8|SWAP [HL]|RL r8|RL [HL]|\
RLA|RLC r8|RLC [HL]|RLCA|RR r8|RR [HL]|RRA|RRC r8|RRC [HL]|RRCA|SLA r8|SLA [HL]|SRA r8|SRA [HL]|\
SRL r8|SRL [HL]|LD r8,r8|LD r8,n8|LD r16,n16|LD [HL],r8|LD [HL],n8|LD r8,[HL]|LD [r16],A|LD [n16],A|\
LDH [n16],A|LDH [C],A|LD A,[r16]|LD A,[n16]|LDH A,[n16]|LDH A,[C]|LD [HLI],A|LD [HLD],A|LD A,[HLI]|\
LD A,[HLD]|CALL n16|CALL cc,n16|JP HL|JP n16|JP cc,n16|JR n16|JR cc,n16|RET cc|RET|RETI|RST vec|\
ADD HL,SP|ADD SP,e8|DEC SP|INC SP|LD SP,n16|LD [n16],SP|LD HL,SP+e8|LD SP,HL|POP AF|POP r16|PUSH AF|\
PUSH r16|CCF|CPL|DAA|DI|EI|HALT|NOP|SCF|STOP";

/// What each abbreviation of the reference's legend stands for; of a constant
/// the one that the bytes 34 12 are.
const LEGEND: [(&str, &[&str]); 8] = [
    ("r8", &["A", "B", "C", "D", "E", "H", "L"]),
    ("r16", &["BC", "DE", "HL"]),
    ("u3", &["0", "1", "2", "3", "4", "5", "6", "7"]),
    ("cc", &["Z", "NZ", "C", "NC"]),
    (
        "vec",
        &["$00", "$08", "$10", "$18", "$20", "$28", "$30", "$38"],
    ),
    ("n8", &["$34"]),
    ("n16", &["$1234"]),
    ("e8", &["$34"]),
];

/// A heading with one abbreviation after the other replaced by all that it stands for.
fn expand(heading: &str, into: &mut BTreeSet<String>) {
    let found = LEGEND.iter().find(|(short, _)| heading.contains(short));
    match found {
        Some((short, texts)) => {
            for text in *texts {
                expand(&heading.replacen(short, text, 1), into);
            }
        }
        None => {
            into.insert(heading.to_string());
        }
    }
}

/// The reference's headings, expanded. JR's n16 is its target, seen from $0000,
/// and LDH's lies from $FF00 on.
fn expanded_headings() -> BTreeSet<String> {
    let mut all = BTreeSet::new();
    for heading in HEADINGS.split('|') {
        let heading = match heading.split(' ').next() {
            Some("JR") => heading.replace("n16", "$0036"),
            Some("LDH") => heading.replace("n16", "$FF34"),
            _ => heading.to_string(),
        };
        expand(&heading, &mut all);
    }
    all
}

/// The row's bytes as they begin an instruction, with the operand bytes 34 12;
/// nothing for a row that has no instruction.
fn instruction(row: u32) -> Option<Vec<u8>> {
    let bytes = match (u8::try_from(row), row as u8) {
        (Ok(0x10), _) => vec![0x10, 0x00],
        (Ok(opcode), _) => vec![opcode, 0x34, 0x12],
        (Err(_), second) => vec![0xCB, second],
    };
    let taken = usize::from(length(row));
    (taken > 0).then(|| bytes[..taken].to_vec())
}

/// Every row of the table has a spelling of its own, and together they are the
/// 500 that the headings stand for. The table's length is what a line takes.
#[test]
fn the_spellings_are_those_of_the_headings() {
    let mut spelled = BTreeSet::new();
    let mut instructions = 0;
    for bytes in (0..512).filter_map(instruction) {
        let text = listing(&bytes, 0x0000);
        assert_eq!(text.lines().count(), 1, "{text}");
        spelled.insert(columns(text.trim_end())[2].to_string());
        instructions += 1;
    }
    assert_eq!((instructions, spelled.len()), (500, 500));
    assert_eq!(spelled, expanded_headings());
}
