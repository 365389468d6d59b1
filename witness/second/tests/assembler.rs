//! The assembler: how each point of M-103 is read, every heading of the instruction
//! reference with its opcode by document 01's grid, and the refusals in their order.

use second::{assemble, assembly, listing, Assembled, Fault};

const LINE: u8 = 12;
const NESTING: u8 = 13;
const RANGE: u8 = 14;
const ROOM: u8 = 10;

/// What stands in an output before something is assembled to it.
const BEFORE: u8 = 0xA5;

fn from(first: u16, text: &str) -> Result<Vec<u8>, Fault> {
    assembly(text.as_bytes(), first, usize::MAX)
}

/// A line, without its newline, is these bytes at $0150.
fn gives(line: &str, bytes: &[u8]) {
    gives_at(0x0150, line, bytes);
}

fn gives_at(address: u16, line: &str, bytes: &[u8]) {
    assert_eq!(
        from(address, &format!("{line}\n")),
        Ok(bytes.to_vec()),
        "{line}"
    );
}

/// A line is refused with this code at $0150.
fn refused(code: u8, line: &str) {
    refused_at(0x0150, code, line);
}

fn refused_at(address: u16, code: u8, line: &str) {
    let fault = Fault { code, line: 1 };
    assert_eq!(from(address, &format!("{line}\n")), Err(fault), "{line:?}");
}

/// A constant inside so many round brackets.
fn nested(depth: usize, inside: &str) -> String {
    format!("{}{inside}{}", "(".repeat(depth), ")".repeat(depth))
}

#[test]
fn the_example_of_the_listing_is_read_back() {
    let bytes = vec![0x20, 0xF8, 0xD3];
    assert_eq!(from(0x0150, "JR NZ,$014A\nDB $D3\n"), Ok(bytes));
}

#[test]
fn lines_of_either_edition() {
    let old = "LDI [HL],A\nLDI A,[HL]\nLDD [HL],A\nLDD A,[HL]\n\
               LDIO [$FF80],A\nLDIO A,[$FF80]\nLDIO [C],A\nLDIO A,[C]\n";
    let new = "LD [HLI],A\nLD A,[HLI]\nLD [HLD],A\nLD A,[HLD]\n\
               LDH [$FF80],A\nLDH A,[$FF80]\nLDH [C],A\nLDH A,[C]\n";
    let bytes = vec![0x22, 0x2A, 0x32, 0x3A, 0xE0, 0x80, 0xF0, 0x80, 0xE2, 0xF2];
    assert_eq!(from(0x0150, old), Ok(bytes.clone()));
    assert_eq!(from(0x0150, new), Ok(bytes));
    let mixed = "LDI [HL],A\nLD A,[HLI]\n";
    assert_eq!(from(0x0150, mixed), Ok(vec![0x22, 0x2A]));
}

/// Headings without a constant, each with the opcode of the grid that it begins at and
/// how far one of its operands is from the next.
#[test]
fn registers_pairs_and_conditions_count_along_the_grid() {
    let places = ["B", "C", "D", "E", "H", "L", "[HL]", "A"];
    let pairs = ["BC", "DE", "HL", "SP"];
    let stacked = ["BC", "DE", "HL", "AF"];
    let conditions = ["NZ", "Z", "NC", "C"];
    let operations = ["ADD", "ADC", "SUB", "SBC", "AND", "XOR", "OR", "CP"];
    let rotations = ["RLC", "RRC", "RL", "RR", "SLA", "SRA", "SWAP", "SRL"];
    for (y, to) in (0..8).zip(places) {
        gives(&format!("INC {to}"), &[0x04 + 8 * y]);
        gives(&format!("DEC {to}"), &[0x05 + 8 * y]);
        gives(&format!("LD {to},$34"), &[0x06 + 8 * y, 0x34]);
        gives(&format!("RST {}", 8 * y), &[0xC7 + 8 * y]);
        for (z, from) in (0..8).zip(places) {
            match (to, from) {
                ("[HL]", "[HL]") => refused(LINE, "LD [HL],[HL]"),
                _ => gives(&format!("LD {to},{from}"), &[0x40 + 8 * y + z]),
            }
            let (operation, rotation) = (operations[usize::from(y)], rotations[usize::from(y)]);
            gives(&format!("{operation} A,{from}"), &[0x80 + 8 * y + z]);
            gives(&format!("{rotation} {from}"), &[0xCB, 8 * y + z]);
            gives(&format!("BIT {y},{from}"), &[0xCB, 0x40 + 8 * y + z]);
            gives(&format!("RES {y},{from}"), &[0xCB, 0x80 + 8 * y + z]);
            gives(&format!("SET {y},{from}"), &[0xCB, 0xC0 + 8 * y + z]);
        }
        gives(
            &format!("{} A,$34", operations[usize::from(y)]),
            &[0xC6 + 8 * y, 0x34],
        );
    }
    for (p, pair) in (0..4).zip(pairs) {
        gives(&format!("LD {pair},$1234"), &[0x01 + 16 * p, 0x34, 0x12]);
        gives(&format!("ADD HL,{pair}"), &[0x09 + 16 * p]);
        gives(&format!("INC {pair}"), &[0x03 + 16 * p]);
        gives(&format!("DEC {pair}"), &[0x0B + 16 * p]);
    }
    for (p, pair) in (0..4).zip(stacked) {
        gives(&format!("POP {pair}"), &[0xC1 + 16 * p]);
        gives(&format!("PUSH {pair}"), &[0xC5 + 16 * p]);
    }
    for (y, condition) in (0..4).zip(conditions) {
        gives(&format!("JR {condition},$0154"), &[0x20 + 8 * y, 0x02]);
        gives(&format!("RET {condition}"), &[0xC0 + 8 * y]);
        gives(
            &format!("JP {condition},$1234"),
            &[0xC2 + 8 * y, 0x34, 0x12],
        );
        gives(
            &format!("CALL {condition},$1234"),
            &[0xC4 + 8 * y, 0x34, 0x12],
        );
    }
    for (p, at) in (0..4).zip(["BC", "DE", "HLI", "HLD"]) {
        gives(&format!("LD [{at}],A"), &[0x02 + 16 * p]);
        gives(&format!("LD A,[{at}]"), &[0x0A + 16 * p]);
    }
    let rotated = ["RLCA", "RRCA", "RLA", "RRA", "DAA", "CPL", "SCF", "CCF"];
    for (y, name) in (0..8).zip(rotated) {
        gives(name, &[0x07 + 8 * y]);
    }
}

#[test]
fn what_stands_alone_in_the_grid() {
    gives("NOP", &[0x00]);
    gives("LD [$1234],SP", &[0x08, 0x34, 0x12]);
    gives("STOP", &[0x10, 0x00]);
    gives("JR $0152", &[0x18, 0x00]);
    gives("HALT", &[0x76]);
    gives("RET", &[0xC9]);
    gives("RETI", &[0xD9]);
    gives("JP HL", &[0xE9]);
    gives("LD SP,HL", &[0xF9]);
    gives("JP $1234", &[0xC3, 0x34, 0x12]);
    gives("CALL $1234", &[0xCD, 0x34, 0x12]);
    gives("DI", &[0xF3]);
    gives("EI", &[0xFB]);
    gives("LDH [$FF34],A", &[0xE0, 0x34]);
    gives("LDH A,[$FF34]", &[0xF0, 0x34]);
    gives("LDH [C],A", &[0xE2]);
    gives("LDH A,[C]", &[0xF2]);
    gives("LD [$1234],A", &[0xEA, 0x34, 0x12]);
    gives("LD A,[$1234]", &[0xFA, 0x34, 0x12]);
    gives("ADD SP,$34", &[0xE8, 0x34]);
    gives("LD HL,SP+$34", &[0xF8, 0x34]);
    gives("DB $34", &[0x34]);
}

#[test]
fn the_spelling_decides_the_opcode() {
    gives("LD A,[$FF80]", &[0xFA, 0x80, 0xFF]);
    gives("LD [$FF80],A", &[0xEA, 0x80, 0xFF]);
    gives("DB $76", &[0x76]);
    gives("LD A,($12)", &[0x3E, 0x12]);
    gives("LD A,[($12)]", &[0xFA, 0x12, 0x00]);
    gives("JP ($1234)", &[0xC3, 0x34, 0x12]);
}

#[test]
fn terms_are_joined_from_left_to_right() {
    gives("DB 10-3-2", &[5]);
    gives("DB 10-(3-2)", &[9]);
    gives("DB -5+3", &[0xFE]);
    gives("DB -(5+3)", &[0xF8]);
    gives("DB -(-5)", &[5]);
    gives("DB 5-(-3)", &[8]);
    gives("DB (1)+(2)+(3)", &[6]);
    gives("DB ((1)+(2-(3-4)))-(5)", &[0xFF]);
    gives("DB $0A+10", &[20]);
    gives("DB -0", &[0]);
    gives("BIT 3+4,A", &[0xCB, 0x7F]);
    gives("RST 8", &[0xCF]);
    gives("LD HL,SP+5-3", &[0xF8, 2]);
    gives("LD HL,SP+-$05", &[0xF8, 0xFB]);
    gives("LD HL,SP+(-5)", &[0xF8, 0xFB]);
    gives("LD [(5)+1],A", &[0xEA, 6, 0]);
}

#[test]
fn numbers_have_any_count_of_digits() {
    gives("DB 007", &[7]);
    gives("DB $007", &[7]);
    gives("DB $5", &[5]);
    gives(&format!("DB {}255", "0".repeat(1000)), &[255]);
    gives(&format!("DB ${}FF", "0".repeat(1000)), &[255]);
    gives("LD BC,65535", &[0x01, 0xFF, 0xFF]);
    gives("LD BC,$FFFF", &[0x01, 0xFF, 0xFF]);
    gives("LD BC,$ABCD", &[0x01, 0xCD, 0xAB]);
    for number in [
        "65536",
        "65537",
        "$10000",
        "$10005",
        "4294967296",
        "4294967301",
        "$100000000",
        "18446744073709551616",
        "18446744073709551621",
        "$10000000000000000",
        "$10000000000000005",
        "340282366920938463463374607431768211456",
        "340282366920938463463374607431768211461",
        "99999999999999999999999999999999999999999999999999",
    ] {
        refused(RANGE, &format!("DB {number}"));
        refused(RANGE, &format!("DB {number}-{number}"));
        refused(RANGE, &format!("DB (5)-(3+{number}-{number})"));
    }
}

#[test]
fn sums_on_the_way_have_no_limit() {
    gives("DB 65535-65535", &[0]);
    gives("DB 65535+65535+5-65535-65535", &[5]);
    gives("DB -65535-65535+65535+65535", &[0]);
    let up = "+65535".repeat(70_000);
    let down = "-65535".repeat(70_000);
    gives(&format!("DB 7{up}{down}"), &[7]);
    gives(&format!("DB 7{down}{up}"), &[7]);
    refused(RANGE, &format!("DB 7{up}"));
    // The sum is 65,536 times 65,536, so that 32 bits would lose all of it.
    let wrapping = format!("DB 5{}+65535+1", "+65535+1".repeat(65_535));
    refused(RANGE, &wrapping);
}

#[test]
fn n8_is_from_128_below_0_to_255() {
    gives("LD A,-128", &[0x3E, 0x80]);
    gives("LD A,-1", &[0x3E, 0xFF]);
    gives("LD A,255", &[0x3E, 0xFF]);
    gives("DB -128", &[0x80]);
    gives("DB 255", &[0xFF]);
    for line in [
        "LD A,-129",
        "LD A,256",
        "LD [HL],256",
        "CP A,-129",
        "DB 256",
        "DB -129",
    ] {
        refused(RANGE, line);
    }
}

#[test]
fn n16_is_from_32_768_below_0_to_65_535() {
    gives("LD BC,-32768", &[0x01, 0x00, 0x80]);
    gives("LD BC,-1", &[0x01, 0xFF, 0xFF]);
    gives("JP -1", &[0xC3, 0xFF, 0xFF]);
    gives("LD [-2],SP", &[0x08, 0xFE, 0xFF]);
    gives("LD A,[65535]", &[0xFA, 0xFF, 0xFF]);
    for operand in ["-32769", "65535+1"] {
        refused(RANGE, &format!("LD BC,{operand}"));
        refused(RANGE, &format!("JP NZ,{operand}"));
        refused(RANGE, &format!("CALL {operand}"));
        refused(RANGE, &format!("LD [{operand}],A"));
        refused(RANGE, &format!("JR {operand}"));
        refused(RANGE, &format!("LDH A,[{operand}]"));
    }
}

#[test]
fn e8_is_from_128_below_0_to_127() {
    gives("ADD SP,-128", &[0xE8, 0x80]);
    gives("ADD SP,127", &[0xE8, 0x7F]);
    gives("LD HL,SP+-128", &[0xF8, 0x80]);
    gives("LD HL,SP+127", &[0xF8, 0x7F]);
    for line in [
        "ADD SP,128",
        "ADD SP,-129",
        "LD HL,SP+128",
        "LD HL,SP+-129",
        "ADD SP,255",
    ] {
        refused(RANGE, line);
    }
}

#[test]
fn bit_numbers_and_vectors() {
    for line in ["BIT 8,A", "BIT -1,A", "SET 256,[HL]", "RES 65535,B"] {
        refused(RANGE, line);
    }
    for line in [
        "RST 1", "RST 7", "RST 57", "RST 64", "RST -8", "RST 256", "RST $FF",
    ] {
        refused(RANGE, line);
    }
    gives("RST $38", &[0xFF]);
    gives("RST 28+28", &[0xFF]);
}

#[test]
fn ldh_s_address_lies_from_ff00_on() {
    gives("LDH [$FF00],A", &[0xE0, 0x00]);
    gives("LDH [$FFFF],A", &[0xE0, 0xFF]);
    gives("LDH [-128],A", &[0xE0, 0x80]);
    gives("LDH A,[-1]", &[0xF0, 0xFF]);
    gives("LDIO A,[-256]", &[0xF0, 0x00]);
    for operand in ["$FEFF", "-257", "$80", "0", "65536", "-32768"] {
        refused(RANGE, &format!("LDH [{operand}],A"));
        refused(RANGE, &format!("LDIO A,[{operand}]"));
    }
}

#[test]
fn jr_s_target_is_within_reach() {
    gives("JR $0150", &[0x18, 0xFE]);
    gives("JR $01D1", &[0x18, 0x7F]);
    gives("JR C,$00D2", &[0x38, 0x80]);
    refused(RANGE, "JR $01D2");
    refused(RANGE, "JR NZ,$00D1");
    refused(RANGE, "JR $8150");
}

#[test]
fn jr_s_target_and_reach_count_modulo_65_536() {
    gives_at(0x0000, "JR $FF82", &[0x18, 0x80]);
    gives_at(0x0000, "JR -126", &[0x18, 0x80]);
    refused_at(0x0000, RANGE, "JR $FF81");
    refused_at(0x0000, RANGE, "JR -127");
    gives_at(0xFFFE, "JR 127", &[0x18, 0x7F]);
    refused_at(0xFFFE, RANGE, "JR 128");
    gives_at(0xFFFF, "JR Z,$0001", &[0x28, 0x00]);
    gives_at(0xFFFF, "JR Z,$FF81", &[0x28, 0x80]);
    gives_at(0x8000, "JR -32768", &[0x18, 0xFE]);
    gives_at(0x7FFE, "JR -32768", &[0x18, 0x00]);
    refused_at(0x0000, RANGE, "JR $8002");
    refused_at(0x0000, RANGE, "JR $8001");
}

#[test]
fn a_line_s_address_is_that_of_the_bytes_before_it() {
    let text = "NOP\nLD BC,0\nSTOP\nJR $0156\nDB 5\nJR $0156\n";
    let bytes = vec![0x00, 0x01, 0, 0, 0x10, 0x00, 0x18, 0xFE, 0x05, 0x18, 0xFB];
    assert_eq!(from(0x0150, text), Ok(bytes));
    assert_eq!(from(0xFFFF, "NOP\nJR 0\n"), Ok(vec![0x00, 0x18, 0xFE]));
    let long = format!("{}JR $0150\n", "NOP\n".repeat(65_536));
    assert_eq!(
        from(0x0150, &long).map(|bytes| bytes[65_536..].to_vec()),
        Ok(vec![0x18, 0xFE])
    );
}

/// Aliases that the documents mention, other assemblers' ways, and whatever is a letter, a
/// space or a bracket too many or too few.
#[rustfmt::skip] // As many in a line as fit.
const NO_SUCH_FORM: &[&str] = &[
    "", " ", "NOP ", " NOP", "NOP  ", "nop", "Nop", "NOP\r", "NOP\t", "NOP;", "NOP ;x", "X: NOP",
    "0150 00 NOP", "00 NOP", "NOP 0", "NOP A", "STOP 0", "STOP $00", "HALT,", "NOPE", "NO", "RETII", "LD",
    "LD ", "LD A", "LD A,", "LD ,A", "LD A,B,C", "LD A B", "LD A, B", "LD A ,B", "LD  A,B", "LD\tA,B",
    "LD A,B ", "LDA,B", "LD a,B", "LD A,[hl]", "LD A,$ff", "LD A,$Ff", "LD A,[ HL]", "LD A,[HL", "LD A,HL]",
    "LD A,[[HL]]", "LD A,()", "LD A,(1", "LD A,1)", "LD A,((1)", "LD A,(1))", "LD A,(1)2", "LD A,1(2)",
    "LD A,(1)(2)", "LD A,+5", "LD A,--5", "LD A,5+-3", "LD A,5--3", "LD A,5++3", "LD A,5+", "LD A,5-",
    "LD A,-", "LD A,(-)", "LD A,(+5)", "LD A,(5+)", "LD A,$", "LD A,-$", "LD A,$-5", "LD A,0x10", "LD A,%1",
    "LD A,10H", "LD A,1F", "LD A,'A'", "LD A,1*2", "LD A,5 +3", "LD A,5+ 3", "LD A,5 ", "LD A,(5 )",
    "LD A,$ 5", "LD A,1_000", "LD A,1,2", "LD A,[5", "LD A,5]", "LD A,[5]]", "LD A,[-]", "LD A,[]",
    "LD [5],B", "LD [5],HL", "LD B,[5]", "LD BC,[5]", "LD B,[BC]", "LD [BC],B", "LD [DE],5", "LD [SP],A",
    "LD A,[AF]", "LD A,[C]", "LD [C],A", "LD AF,5", "LD BC,DE", "LD HL,SP", "LD HL,SP+", "LD HL,SP-5",
    "LD HL,SP+A", "LD HL,SP+5,A", "LD HL,SP++5", "LD DE,SP+5", "LD A,SP+5", "LD SP,BC", "LD SP,SP+5",
    "LD HL,[5]", "LD [HL],[5]", "LD [HLI],B", "LD [HLI],5", "LD B,[HLI]", "LD A,[HL+]", "LD A,[HL-]",
    "LD [HL+],A", "LD [$FF00+C],A", "LD A,[$FF00+C]", "LDH [HL],A", "LDH A,[BC]", "LDH A,5", "LDH A,B",
    "LDH [$FF80],B", "LDH B,[C]", "LDI [HLI],A", "LDI A,[HLI]", "LDI A,B", "LDI [HL],B", "LDD B,[HL]",
    "LDD [BC],A", "LDIO A,5", "LDIO [C],B", "ADD B", "OR B", "CP $05", "SUB $05", "AND [HL]", "ADD B,A",
    "ADD HL,AF", "ADD HL,5", "ADD SP,B", "ADD BC,DE", "ADD [HL],A", "SUB HL,BC", "ADC HL,BC", "CPL A",
    "INC AF", "INC 5", "INC [BC]", "INC [5]", "INC A,B", "DEC Z", "PUSH SP", "PUSH A", "POP PC", "POP [HL]",
    "RLCA A", "RLC BC", "RL 5", "SWAP", "BIT A", "BIT 3", "BIT A,3", "BIT 3,HL", "BIT 3,BC", "BIT [3],A",
    "SET C,A", "JP [HL]", "JP A", "JP NZ", "JP NZ,HL", "JP !Z,5", "JP A,5", "JP 5,Z", "JR HL", "JR NZ",
    "JR PO,5", "JR [5]", "CALL HL", "CALL Z", "CALL [5]", "RET A", "RET 5", "RETI Z", "RST", "RST A",
    "RST [8]", "DB", "DB ", "DB A", "DB 1,2", "DB [1]", "DB \"A\"", "DW 5", "ORG 5", "DB 5:", "DB 5\u{e9}",
    "\u{e9}", "NOP\0", "\0", "DB 5\0",
];

#[test]
fn what_has_no_such_form() {
    for line in NO_SUCH_FORM {
        refused(LINE, line);
    }
    for bytes in [&b"NOP\x80\n"[..], b"\xFF\n", b"DB \xB1\n", b"DB 1\xFF\n"] {
        let fault = Fault {
            code: LINE,
            line: 1,
        };
        assert_eq!(assembly(bytes, 0, usize::MAX), Err(fault));
    }
}

#[test]
fn a_last_line_without_its_newline_is_12() {
    let fault = |line| Err(Fault { code: LINE, line });
    for last in ["NOP", "DB 300", "x", "DB 5", "JR 0", "DB 5\r"] {
        assert_eq!(from(0x0150, last), fault(1));
        assert_eq!(from(0x0150, &format!("NOP\n{last}")), fault(2));
    }
    assert_eq!(from(0x0150, &format!("DB {}", nested(17, "300"))), fault(1));
    assert_eq!(assembly(b"NOP", 0, 0), fault(1));
    let first_at_fault = Err(Fault {
        code: RANGE,
        line: 1,
    });
    assert_eq!(from(0x0150, "DB 300\nNOP"), first_at_fault);
}

#[test]
fn an_empty_text_is_done() {
    let done = Assembled {
        code: 0,
        line: 0,
        length: 0,
    };
    assert_eq!(assemble(b"", 0xFFFF, &mut []), done);
    let mut out = [BEFORE; 3];
    assert_eq!(assemble(b"", 0x0150, &mut out), done);
    assert_eq!(out, [BEFORE; 3]);
    refused(LINE, "");
}

#[test]
fn sixteen_brackets_may_be_open_at_once() {
    for depth in [1, 2, 15, 16] {
        gives(&format!("DB {}", nested(depth, "5")), &[5]);
        gives(&format!("DB {}", nested(depth, "-5")), &[0xFB]);
        let beside = format!("{}+{}-5", nested(depth, "5"), nested(depth, "6"));
        gives(&format!("DB {beside}"), &[6]);
    }
    for depth in [17, 18, 32, 33, 256, 257, 1000, 65_553, 100_000] {
        refused(NESTING, &format!("DB {}", nested(depth, "5")));
        refused(NESTING, &format!("LD A,[1+{}]", nested(depth, "5")));
        refused(NESTING, &format!("BIT {},B", nested(depth, "5")));
        refused(NESTING, &format!("DB 1+({}-2)", nested(depth - 1, "5")));
    }
}

#[test]
fn form_comes_before_nesting_and_nesting_before_range() {
    for depth in [17, 1000] {
        refused(LINE, &format!("DB {})", nested(depth, "5")));
        refused(LINE, &format!("DB ({}", nested(depth, "5")));
        refused(LINE, &format!("DB {}", nested(depth, "")));
        refused(LINE, &format!("DB {}", nested(depth, "5+")));
        refused(LINE, &format!("DB {},5", nested(depth, "5")));
        refused(LINE, &format!("LDH B,[{}]", nested(depth, "5")));
        refused(LINE, &format!("DB {} ", nested(depth, "5")));
        refused(NESTING, &format!("DB {}", nested(depth, "65536")));
        refused(NESTING, &format!("DB {}", nested(depth, "256")));
        refused(NESTING, &format!("DB 65536+{}", nested(depth, "1")));
    }
    refused(LINE, "DB 65536+");
    refused(LINE, "DB 300,1");
}

#[test]
fn the_first_line_at_fault_is_answered() {
    let deep = format!("DB {}", nested(17, "5"));
    let faulty = [("x", LINE), (&deep, NESTING), ("DB 256", RANGE)];
    for (first, code) in faulty {
        for (second, _) in faulty {
            let text = format!("NOP\n{first}\n{second}\n");
            assert_eq!(from(0x0150, &text), Err(Fault { code, line: 2 }));
        }
    }
}

/// 10 is for the first line whose bytes do not all fit, and comes last within it.
#[test]
fn room_is_judged_line_by_line() {
    let text = b"NOP\nLD BC,$1234\nDB 5\n";
    let bytes = [0x00, 0x01, 0x34, 0x12, 0x05];
    for (room, line) in [(0, 1), (1, 2), (2, 2), (3, 2), (4, 3)] {
        let mut out = vec![BEFORE; room];
        let refused = Assembled {
            code: ROOM,
            line,
            length: 0,
        };
        assert_eq!(assemble(text, 0x0150, &mut out), refused);
        assert_eq!(out, vec![BEFORE; room]);
    }
    for more in [0, 1, 100] {
        let mut out = vec![BEFORE; bytes.len() + more];
        let done = Assembled {
            code: 0,
            line: 0,
            length: bytes.len(),
        };
        assert_eq!(assemble(text, 0x0150, &mut out), done);
        assert_eq!(out[..bytes.len()], bytes);
        assert_eq!(out[bytes.len()..], vec![BEFORE; more]);
    }
    for (text, code, line) in [
        (&b"NOP\nx\n"[..], ROOM, 1),
        (b"x\nNOP\n", LINE, 1),
        (b"DB 256\nNOP\n", RANGE, 1),
        (b"JR $0300\n", RANGE, 1),
        (b"NOP", LINE, 1),
    ] {
        let refused = Assembled {
            code,
            line,
            length: 0,
        };
        assert_eq!(assemble(text, 0x0150, &mut []), refused);
    }
}

#[test]
fn a_refused_text_writes_nothing() {
    let mut out = [BEFORE; 9];
    let refused = Assembled {
        code: RANGE,
        line: 3,
        length: 0,
    };
    assert_eq!(
        assemble(b"NOP\nLD BC,$1234\nDB 256\n", 0x0150, &mut out),
        refused
    );
    assert_eq!(out, [BEFORE; 9]);
}

/// The third column of each line, which may hold a space.
fn spellings(text: &str) -> String {
    let lines = text.split_inclusive('\n');
    lines
        .map(|line| line.splitn(3, ' ').nth(2).expect("three columns"))
        .collect()
}

/// A part of so many bytes, of every value and in no order.
fn jumbled(size: usize) -> Vec<u8> {
    let number = |n: usize| (n as u32).wrapping_mul(0x9E37_79B1) >> 11;
    (0..size).map(|n| number(n) as u8).collect()
}

#[test]
fn the_spellings_of_a_listing_give_its_bytes_back() {
    for (size, first) in [
        (70_000, 0x8000),
        (5_000, 0xFFFF),
        (5_000, 0x0000),
        (1, 0x0150),
        (0, 0),
    ] {
        let part = jumbled(size);
        for edition in [1, 2] {
            let text = listing(&part, first, edition).expect("an edition");
            assert_eq!(from(first, &spellings(&text)), Ok(part.clone()));
        }
    }
}
