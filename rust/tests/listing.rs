//! Bytes as text: the lines that document 02 and the instruction reference give, the room, and what
//! stays.

use random::Random;
use trnadulek::Edition::{New, Old};
use trnadulek::{link, list, listing, Edition, Refusal, LISTING_PER_BYTE};

/// The text whole with room for it, and nothing but the refusal with a byte less.
#[track_caller]
fn is_listed_in(edition: Edition, part: &[u8], first: u16, text: &str) {
    assert_eq!(listing(part, first, edition), text);
    for room in [text.len(), text.len() + 1, part.len() * LISTING_PER_BYTE] {
        let mut out = vec![b'.'; room];
        assert_eq!(list(part, first, edition, &mut out), Ok(text.len()));
        let past = ".".repeat(room - text.len());
        assert_eq!(String::from_utf8(out).unwrap(), format!("{text}{past}"));
    }
    for room in [0, text.len().saturating_sub(1)] {
        if room < text.len() {
            let mut out = vec![b'.'; room];
            let refused = list(part, first, edition, &mut out);
            assert_eq!(refused, Err(Refusal::Room));
            assert_eq!(out, vec![b'.'; room]);
        }
    }
}

/// The same text in both editions.
#[track_caller]
fn is_listed(part: &[u8], first: u16, text: &str) {
    is_listed_in(Old, part, first, text);
    is_listed_in(New, part, first, text);
}

#[test]
fn the_example_of_document_02() {
    let text = "0150 20F8 JR NZ,$014A\n0152 D3 DB $D3\n";
    is_listed(&[0x20, 0xF8, 0xD3], 0x0150, text);
}

#[test]
fn nothing_is_an_empty_text() {
    is_listed(&[], 0x0150, "");
    for edition in Edition::ALL {
        assert_eq!(list(&[], 0xFFFF, edition, &mut []), Ok(0));
    }
}

#[test]
fn the_adding_routine() {
    let routine = [0xA7, 0x1A, 0x8E, 0x27, 0x22, 0x13, 0x05, 0x20, 0xF8, 0xC9];
    let text = "\
0150 A7 AND A,A
0151 1A LD A,[DE]
0152 8E ADC A,[HL]
0153 27 DAA
0154 22 LD [HLI],A
0155 13 INC DE
0156 05 DEC B
0157 20F8 JR NZ,$0151
0159 C9 RET
";
    is_listed_in(New, &routine, 0x0150, text);
    let old = text.replace("LD [HLI],A", "LDI [HL],A");
    is_listed_in(Old, &routine, 0x0150, &old);
}

#[test]
fn an_instruction_that_the_end_cuts_is_data() {
    is_listed(&[0xC3, 0x00], 0, "0000 C3 DB $C3\n0001 00 NOP\n");
    is_listed(&[0xC3, 0x06], 0, "0000 C3 DB $C3\n0001 06 DB $06\n");
    is_listed(&[0xC9, 0xFA], 0x7FFE, "7FFE C9 RET\n7FFF FA DB $FA\n");
    is_listed(&[0xCB], 0x4000, "4000 CB DB $CB\n");
    for first_of_more in [0x01, 0x18, 0x20, 0x36, 0xCD, 0xE0, 0xE8, 0xF8, 0xFE] {
        let text = format!("0000 {first_of_more:02X} DB ${first_of_more:02X}\n");
        is_listed(&[first_of_more], 0, &text);
    }
}

#[test]
fn stop_is_two_bytes_and_any_other_10_is_data() {
    is_listed(&[0x10, 0x00], 0x0150, "0150 1000 STOP\n");
    is_listed(&[0x10], 0x0150, "0150 10 DB $10\n");
    is_listed(&[0x10, 0x76], 0, "0000 10 DB $10\n0001 76 HALT\n");
    is_listed(&[0x10, 0x10, 0x00], 0, "0000 10 DB $10\n0001 1000 STOP\n");
}

#[test]
fn undefined_bytes_are_data() {
    for byte in [
        0xD3, 0xDB, 0xDD, 0xE3, 0xE4, 0xEB, 0xEC, 0xED, 0xF4, 0xFC, 0xFD,
    ] {
        let text = format!("C000 {byte:02X} DB ${byte:02X}\nC001 00 NOP\nC002 00 NOP\n");
        is_listed(&[byte, 0x00, 0x00], 0xC000, &text);
    }
}

/// Only the part's end cuts: the highest address does not.
#[test]
fn addresses_and_targets_count_modulo_65_536() {
    let text = "FFFF C35001 JP $0150\n0002 C9 RET\n";
    is_listed(&[0xC3, 0x50, 0x01, 0xC9], 0xFFFF, text);
    is_listed(&[0x18, 0xFE], 0xC000, "C000 18FE JR $C000\n");
    is_listed(&[0x28, 0x7F], 0x0150, "0150 287F JR Z,$01D1\n");
    is_listed(&[0x30, 0x80], 0x0150, "0150 3080 JR NC,$00D2\n");
    is_listed(&[0x38, 0x02], 0xFFFE, "FFFE 3802 JR C,$0002\n");
    is_listed(&[0x18, 0x80], 0x0000, "0000 1880 JR $FF82\n");
}

#[test]
fn constants_have_two_digits_or_four() {
    is_listed(&[0xD6, 0x05], 0, "0000 D605 SUB A,$05\n");
    is_listed(&[0x31, 0xFE, 0xFF], 0, "0000 31FEFF LD SP,$FFFE\n");
    is_listed(&[0x08, 0x34, 0x12], 0, "0000 083412 LD [$1234],SP\n");
    is_listed_in(New, &[0xE0, 0x80], 0, "0000 E080 LDH [$FF80],A\n");
    is_listed_in(New, &[0xF0, 0x0F], 0, "0000 F00F LDH A,[$FF0F]\n");
    is_listed_in(Old, &[0xE0, 0x00], 0, "0000 E000 LDIO [$FF00],A\n");
    is_listed_in(Old, &[0xF0, 0xFF], 0, "0000 F0FF LDIO A,[$FFFF]\n");
    is_listed(&[0xCF], 0, "0000 CF RST $08\n");
    is_listed(&[0xCB, 0x7E], 0, "0000 CB7E BIT 7,[HL]\n");
}

#[test]
fn a_distance_below_0_has_a_sign() {
    is_listed(&[0xE8, 0xFB], 0, "0000 E8FB ADD SP,-$05\n");
    is_listed(&[0xE8, 0x05], 0, "0000 E805 ADD SP,$05\n");
    is_listed(&[0xF8, 0xFB], 0, "0000 F8FB LD HL,SP+-$05\n");
    is_listed(&[0xF8, 0x05], 0, "0000 F805 LD HL,SP+$05\n");
    is_listed(&[0xF8, 0x80], 0, "0000 F880 LD HL,SP+-$80\n");
}

#[test]
fn spellings() {
    is_listed(&[0x80, 0xBE], 0, "0000 80 ADD A,B\n0001 BE CP A,[HL]\n");
    is_listed(&[0x2F, 0xE9], 0, "0000 2F CPL\n0001 E9 JP HL\n");
}

/// What editions 002 to 004 of the reference call these, and what 001 does.
const OLD_AND_NEW: [(&[u8], &str, &str); 8] = [
    (&[0x22], "LDI [HL],A", "LD [HLI],A"),
    (&[0x2A], "LDI A,[HL]", "LD A,[HLI]"),
    (&[0x32], "LDD [HL],A", "LD [HLD],A"),
    (&[0x3A], "LDD A,[HL]", "LD A,[HLD]"),
    (&[0xE0, 0x80], "LDIO [$FF80],A", "LDH [$FF80],A"),
    (&[0xF0, 0x80], "LDIO A,[$FF80]", "LDH A,[$FF80]"),
    (&[0xE2], "LDIO [C],A", "LDH [C],A"),
    (&[0xF2], "LDIO A,[C]", "LDH A,[C]"),
];

#[test]
fn eight_opcodes_have_an_old_spelling_and_a_new_one() {
    for (part, old, new) in OLD_AND_NEW {
        let bytes: String = part.iter().map(|byte| format!("{byte:02X}")).collect();
        is_listed_in(Old, part, 0x0150, &format!("0150 {bytes} {old}\n"));
        is_listed_in(New, part, 0x0150, &format!("0150 {bytes} {new}\n"));
    }
}

/// The first line of a listing, its address and bytes apart from the spelling.
fn first_line(part: &[u8], edition: Edition) -> (String, String) {
    let text = listing(part, 0xFFFF, edition);
    let words: Vec<&str> = text.lines().next().unwrap().splitn(3, ' ').collect();
    (format!("{} {}", words[0], words[1]), words[2].to_string())
}

#[test]
fn no_other_opcode_has_two_spellings() {
    for pair in 0..=u16::MAX {
        let part = [pair.to_be_bytes()[0], pair.to_be_bytes()[1], 0x00];
        let ((old_place, old), (new_place, new)) = (first_line(&part, Old), first_line(&part, New));
        assert_eq!(old_place, new_place);
        let differs = OLD_AND_NEW.iter().any(|(bytes, ..)| bytes[0] == part[0]);
        assert_eq!(old != new, differs, "{part:02X?}");
    }
}

/// An instruction of the old spelling that the end cuts is data, as in the new one.
#[test]
fn what_is_cut_has_one_spelling() {
    is_listed(&[0xE0], 0, "0000 E0 DB $E0\n");
    is_listed(&[0xF0], 0, "0000 F0 DB $F0\n");
}

/// The library refuses exactly the numbers that are no edition here, before it asks for room.
#[test]
fn other_numbers_are_no_editions() {
    let near = [0, 3, 4, 255, 256, 257, 258, 65_535, 65_537, 65_538];
    for number in [&near[..], &[0x8000_0001, 0x8000_0002, u32::MAX]].concat() {
        assert_eq!(Edition::try_from(number), Err(Refusal::Edition));
        for (part, room) in [(&[][..], 0), (&[], 9), (&[0xC9], 0), (&[0xC9], 19)] {
            let (mut out, mut length) = (vec![b'.'; room], 7);
            assert_eq!(link::list(part, 0, number, &mut out, &mut length), 11);
            assert_eq!((out, length), (vec![b'.'; room], 0));
        }
    }
}

#[test]
fn the_editions_are_1_and_2() {
    assert_eq!(Edition::try_from(1), Ok(Old));
    assert_eq!(Edition::try_from(2), Ok(New));
    assert_eq!(Edition::ALL.map(Edition::number), [1, 2]);
    assert_eq!(Edition::default(), New);
}

/// The longest lines for one byte are LD [HLI],A and LDI [HL],A, and no line has more bytes of text
/// for each byte.
#[test]
fn the_bound_is_met_and_not_passed() {
    let part = [0x22; 1_000];
    for edition in Edition::ALL {
        assert_eq!(listing(&part, 0, edition).len(), 1_000 * LISTING_PER_BYTE);
        for pair in 0..=u16::MAX {
            let [opcode, next] = pair.to_be_bytes();
            let mut out = [0; 3 * LISTING_PER_BYTE];
            assert!(list(&[opcode, next, 0x22], 0, edition, &mut out).is_ok());
        }
    }
}

/// Also in a part that is longer than there are addresses.
#[test]
fn every_byte_stands_in_one_line() {
    let mut random = Random::new(101, "listing");
    let part = random.bytes(200_000);
    for edition in Edition::ALL {
        has_every_byte(&part, &listing(&part, 0xC0DE, edition));
    }
}

fn has_every_byte(part: &[u8], text: &str) {
    let mut at = 0;
    assert!(text.ends_with('\n'));
    for line in text.lines() {
        let words: Vec<&str> = line.splitn(3, ' ').collect();
        assert_eq!(words[0], format!("{:04X}", (0xC0DE + at) % 65_536));
        let to = at + words[1].len() / 2;
        let bytes = part[at..to].iter().map(|byte| format!("{byte:02X}"));
        assert_eq!(words[1], bytes.collect::<String>());
        at = to;
    }
    assert_eq!(at, part.len());
}
