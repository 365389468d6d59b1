//! Bytes as text: images, dumps, cartridges and parts. The lines are document 02's and the
//! instruction reference's.

mod common;

use common::*;

const BANK: usize = 16_384;

/// The adding routine at $0150, line by line.
const ADDING_LISTED: &str = "\
0150 A7 AND A,A
0151 1A LD A,[DE]
0152 8E ADC A,[HL]
0153 27 DAA
0154 22 LD [HLI],A
0155 13 INC DE
0156 05 DEC B
0157 20F8 JR NZ,$0151
0159 C9 RET
";

/// So many bytes, zeros but for some.
fn zeros(length: usize, parts: &[(usize, &[u8])]) -> Vec<u8> {
    let mut bytes = vec![0; length];
    for (at, part) in parts {
        bytes[*at..at + part.len()].copy_from_slice(part);
    }
    bytes
}

/// A line of a NOP at each address.
fn nops(addresses: std::ops::Range<usize>) -> String {
    addresses.map(|at| format!("{at:04X} 00 NOP\n")).collect()
}

#[test]
fn a_part_is_the_core_s_own_text() {
    let bench = Bench::new("list-part");
    bench.put("part", &[0x20, 0xF8, 0xD3]);
    let text = "0150 20F8 JR NZ,$014A\n0152 D3 DB $D3\n";
    for address in ["0150", "$0150", "0x150", "150"] {
        let line = format!("list --part part --from {address}");
        assert_eq!(bench.tool(&line).done(), text);
    }
    let fed = bench.fed("list --part - --from 0150", &[0x20, 0xF8, 0xD3]);
    assert_eq!(fed.done(), text);
    bench.put("empty", &[]);
    assert_eq!(bench.tool("list --part empty --from FFFF").done(), "");
}

#[test]
fn a_part_has_any_length() {
    let bench = Bench::new("list-lengths");
    for (length, last) in [
        (23, "0015 00 NOP\n0016 C3 DB $C3\n"),
        (32_769, "7FFF 00 NOP\n8000 C3 DB $C3\n"),
        (65_536, "FFFE 00 NOP\nFFFF C3 DB $C3\n"),
        (65_559, "0015 00 NOP\n0016 C3 DB $C3\n"),
        (70_000, "116E 00 NOP\n116F C3 DB $C3\n"),
    ] {
        bench.put("part", &zeros(length, &[(length - 1, &[0xC3])]));
        let text = bench.tool("list --part part --from 0").done();
        assert_eq!(text.lines().count(), length);
        assert!(text.starts_with("0000 00 NOP\n0001 00 NOP\n"));
        assert!(text.ends_with(last), "{length}");
    }
}

#[test]
fn parts_as_they_are_read() {
    let bench = Bench::new("list-readings");
    let given: [(&str, &[u8], &str); 8] = [
        ("0", &[0xC3, 0x00], "0000 C3 DB $C3\n0001 00 NOP\n"),
        ("0", &[0xCB], "0000 CB DB $CB\n"),
        ("0150", &[0x10, 0x00], "0150 1000 STOP\n"),
        ("0", &[0x10, 0x3C], "0000 10 DB $10\n0001 3C INC A\n"),
        ("FFFF", &[0x3E, 0x12], "FFFF 3E12 LD A,$12\n"),
        ("FFFE", &[0x18, 0x02], "FFFE 1802 JR $0002\n"),
        ("C000", &[0xE0, 0x80], "C000 E080 LDH [$FF80],A\n"),
        ("0", &[0xF8, 0xFB], "0000 F8FB LD HL,SP+-$05\n"),
    ];
    for (from, part, text) in given {
        bench.put("part", part);
        let line = format!("list --part part --from {from}");
        assert_eq!(bench.tool(&line).done(), text);
    }
}

#[test]
fn an_image_from_its_pc() {
    let bench = Bench::new("list-image");
    bench.put("in", &image(&WORKED_HEAD, &worked_memory()));
    let listed = bench.tool("list in").done();
    // Twenty lines, the routine's nine among them.
    assert_eq!(listed, format!("{ADDING_LISTED}{}", nops(0x015A..0x0165)));
    let some = bench.tool("list in --lines 9").done();
    assert_eq!(some, ADDING_LISTED);
    let elsewhere = bench.tool("list in --from C000 --lines 3").done();
    assert_eq!(
        elsewhere,
        "C000 99 SBC A,C\nC001 010000 LD BC,$0000\nC004 00 NOP\n"
    );
    assert_eq!(bench.tool("list in --from 0").done(), nops(0..20));
    let fed = bench.fed("list - --lines 1", &bench.get("in")).done();
    assert_eq!(fed, "0150 A7 AND A,A\n");
}

/// What begins in the range is listed whole; what begins before or behind it is not.
#[test]
fn the_instructions_of_a_range() {
    let bench = Bench::new("list-range");
    bench.put("in", &image(&WORKED_HEAD, &worked_memory()));
    let listed = bench.tool("list in --bytes 0150..0159").done();
    assert_eq!(listed, ADDING_LISTED);
    let cut = bench.tool("list in --bytes 0156..0157").done();
    assert_eq!(cut, "0156 05 DEC B\n0157 20F8 JR NZ,$0151\n");
    let inside = bench.tool("list in --bytes 0158").done();
    assert_eq!(inside, "0158 F8C9 LD HL,SP+-$37\n");
    let two = bench.tool("list in --bytes 0159 --bytes 0150..0151").done();
    assert_eq!(two, "0159 C9 RET\n0150 A7 AND A,A\n0151 1A LD A,[DE]\n");
    let all = bench.tool("list in --bytes 0..FFFF").done();
    bench.put("dump", &worked_memory());
    assert_eq!(all, bench.tool("list dump").done());
}

/// The processor goes on from $FFFF to $0000, and so do lines; a range ends with the memory.
#[test]
fn the_end_of_the_memory() {
    let bench = Bench::new("list-end");
    let bytes = memory(&[(0, &[0x34, 0x12, 0xC9]), (0xFFFF, &[0xCD])]);
    bench.put("dump", &bytes);
    let round = bench.tool("list dump --from FFFE --lines 3").done();
    assert_eq!(round, "FFFE 00 NOP\nFFFF CD3412 CALL $1234\n0002 C9 RET\n");
    let head = with(&with(&WORKED_HEAD, 15, 0xFF), 16, 0xFF);
    bench.put("in", &image(&head, &bytes));
    let next = bench.tool("list in --lines 2").done();
    assert_eq!(next, "FFFF CD3412 CALL $1234\n0002 C9 RET\n");
    let range = bench.tool("list in --bytes FFFE..FFFF").done();
    assert_eq!(range, "FFFE 00 NOP\nFFFF CD DB $CD\n");
}

#[test]
fn a_dump_is_listed_whole() {
    let bench = Bench::new("list-dump");
    bench.put("dump", &worked_memory());
    let listed = bench.tool("list dump").done();
    let code = format!("{}{ADDING_LISTED}015A 00 NOP\n", nops(0..0x0150));
    assert!(listed.starts_with(&code));
    assert!(listed.contains("\nDFFE 34 INC [HL]\nDFFF 12 LD [DE],A\n"));
    assert!(listed.ends_with("\nFFFE 00 NOP\nFFFF 00 NOP\n"));
    assert_eq!(bench.tool("list --dump dump").done(), listed);
    bench.put("short", &[0; 65_535]);
    bench
        .tool("list --dump short")
        .failed("short: refusal 1: memory length is not 65,536; found 65,535 bytes, wanted 65,536");
}

/// Up to two banks are one part from $0000, whatever the length.
#[test]
fn a_small_cartridge_is_one_part() {
    let bench = Bench::new("list-small");
    bench.put("tiny", &[0x00, 0xC3, 0x50, 0x01, 0x10]);
    let tiny = "0000 00 NOP\n0001 C35001 JP $0150\n0004 10 DB $10\n";
    assert_eq!(bench.tool("list tiny").done(), tiny);
    // An instruction that goes on from bank 0 to bank 1.
    let jump: &[u8] = &[0xC3, 0x34, 0x12];
    bench.put(
        "two",
        &zeros(2 * BANK, &[(0x3FFF, jump), (0x7FFF, &[0xC3])]),
    );
    let listed = bench.tool("list two").done();
    assert!(listed.contains("\n3FFF C33412 JP $1234\n4002 00 NOP\n"));
    assert!(listed.ends_with("\n7FFE 00 NOP\n7FFF C3 DB $C3\n"));
    let second = bench.tool("list two --bank 1 --lines 2").done();
    assert_eq!(second, "4000 34 INC [HL]\n4001 12 LD [DE],A\n");
}

/// Each bank is a part of its own, from $0000 or from $4000.
#[test]
fn more_banks_are_listed_one_by_one() {
    let bench = Bench::new("list-banks");
    let jump: &[u8] = &[0xC3, 0x50, 0x01];
    bench.put(
        "eight",
        &zeros(
            8 * BANK,
            &[
                (BANK - 1, jump),
                (3 * BANK, &[0xC9]),
                (8 * BANK - 1, &[0x3E]),
            ],
        ),
    );
    let listed = bench.tool("list eight").done();
    let banks: Vec<&str> = listed.split("\n\n").collect();
    assert_eq!(banks.len(), 8);
    assert!(banks[0].starts_with("bank 0: $0000-$3FFF, 16,384 bytes\n0000 00 NOP\n0001 00 NOP\n"));
    assert!(banks[0].ends_with("\n3FFE 00 NOP\n3FFF C3 DB $C3"));
    assert!(banks[1].starts_with(
        "bank 1: $4000-$7FFF, 16,384 bytes\n4000 50 LD D,B\n4001 010000 LD BC,$0000\n"
    ));
    assert!(banks[3].starts_with("bank 3: $4000-$7FFF, 16,384 bytes\n4000 C9 RET\n4001 00 NOP\n"));
    assert!(banks[7].ends_with("\n7FFE 00 NOP\n7FFF 3E DB $3E\n"));
    let plain = format!(
        "bank 6: $4000-$7FFF, 16,384 bytes\n{}",
        nops(0x4000..0x8000)
    );
    assert_eq!(banks[6], plain.trim_end());
}

#[test]
fn one_bank_of_many() {
    let bench = Bench::new("list-one-bank");
    let parts: [(usize, &[u8]); 3] = [
        (0, &[0xF3]),
        (5 * BANK, &[0xC9]),
        (5 * BANK + 0x0100, &[0xFB]),
    ];
    bench.put("eight", &zeros(8 * BANK, &parts));
    let listed = bench.tool("list eight --bank 5").done();
    let (before, after) = (nops(0x4001..0x4100), nops(0x4101..0x8000));
    assert_eq!(listed, format!("4000 C9 RET\n{before}4100 FB EI\n{after}"));
    for (asked, text) in [
        ("--bank 5 --lines 1", "4000 C9 RET\n"),
        (
            "--bank 5 --from 40FF --lines 2",
            "40FF 00 NOP\n4100 FB EI\n",
        ),
        ("--bank 5 --bytes 4100..4101", "4100 FB EI\n4101 00 NOP\n"),
        ("--lines 2", "0000 F3 DI\n0001 00 NOP\n"),
        ("--from 3FFF", "3FFF 00 NOP\n"),
        ("--bytes 0000", "0000 F3 DI\n"),
    ] {
        assert_eq!(bench.tool(&format!("list eight {asked}")).done(), text);
    }
}

#[test]
fn banks_and_addresses_that_are_not_there() {
    let bench = Bench::new("list-no-bank");
    bench.put("eight", &[0; 8 * BANK]);
    for (asked, words) in [
        ("--bank 8", "eight: there is no bank 8, only banks 0 to 7"),
        (
            "--from 4000",
            "eight: $4000 is not in bank 0; --bank says which of banks 1 to 7 is meant",
        ),
        (
            "--bytes 3FFF..4000",
            "eight: $4000 is not in bank 0; --bank says",
        ),
        (
            "--bank 5 --from 0100",
            "eight: there is no $0100, only $4000-$7FFF, 16,384 bytes",
        ),
        (
            "--bank 5 --bytes 7FFF..8000",
            "eight: there is no $8000, only $4000-$7FFF",
        ),
        (
            "--bank 0 --from 4000",
            "eight: there is no $4000, only $0000-$3FFF",
        ),
    ] {
        bench.tool(&format!("list eight {asked}")).failed(words);
    }
}

/// Four banks have as many bytes as a memory. Where the header says four banks, it is asked.
#[test]
fn four_banks_or_a_dump() {
    let bench = Bench::new("list-four");
    let mut four = zeros(
        4 * BANK,
        &[(0x0134, b"BENCH"), (0x0148, &[1]), (3 * BANK, &[0xC9])],
    );
    // BENCH and the size are $0161; with 25 for the 25 bytes that is $86 less than $0200.
    four[0x014D] = 0x86;
    bench.put("four", &four);
    bench
        .tool("list four")
        .failed("four: a dump, or a cartridge of four banks; --dump or --cartridge says which");
    let cartridge = bench
        .tool("list --cartridge four --bank 3 --lines 1")
        .done();
    assert_eq!(cartridge, "4000 C9 RET\n");
    let dump = bench.tool("list --dump four --from C000 --lines 1").done();
    assert_eq!(dump, "C000 C9 RET\n");
    let headings = bench.tool("list --cartridge four").done();
    assert_eq!(headings.matches("bank ").count(), 4);
    // With a wrong sum, or another size, it is no cartridge's header.
    for (at, byte) in [(0x014D, four[0x014D] ^ 1), (0x0148, 0), (0x0138, b'!')] {
        bench.put("dump", &with(&four, at, byte));
        let listed = bench.tool("list dump --from C000 --lines 1").done();
        assert_eq!(listed, "C000 C9 RET\n");
    }
}

#[test]
fn what_is_no_image_dump_or_cartridge() {
    let bench = Bench::new("list-unknown");
    bench.put("head", &WORKED_HEAD);
    bench
        .tool("list head")
        .failed("head: a head, and a head has no memory");
    bench.put("cut", &image(&WORKED_HEAD, &worked_memory())[..65_558]);
    bench.tool("list cut").failed(
        "cut: found 65,558 bytes, wanted 65,559 for an image, 65,536 for a dump, or a cart",
    );
    let odd = bench.tool("list --cartridge cut").done();
    assert!(odd.contains("\n\nbank 4: $4000-$4015, 22 bytes\n4000 00 NOP\n"));
    bench.put("bad", &image(&with(&WORKED_HEAD, 0, 2), &worked_memory()));
    bench
        .tool("list bad")
        .failed("bad: refusal 7: version byte is not 1; byte 0, the version: found 2, wanted 1");
    bench.put("empty", &[]);
    bench
        .tool("list empty")
        .failed("empty: found 0 bytes, wanted ");
    bench
        .tool("list --cartridge empty")
        .failed("empty: found 0 bytes, wanted a cartridge of 1 to 8,388,608");
    bench.put("in", &image(&WORKED_HEAD, &worked_memory()));
    bench
        .tool("list in --bank 0")
        .failed("in: no cartridge, so it has no banks");
}

#[test]
fn addresses_that_are_not_there() {
    let bench = Bench::new("list-outside");
    bench.put("two", &[0; 2 * BANK]);
    for asked in ["--from 8000", "--bytes 8000..8001", "--bytes 7FFF..8000"] {
        bench
            .tool(&format!("list two {asked}"))
            .failed("two: there is no $8000, only $0000-$7FFF, 32,768 bytes");
    }
    let last = bench.tool("list two --from 7FFE").done();
    assert_eq!(last, "7FFE 00 NOP\n7FFF 00 NOP\n");
}

#[test]
fn to_a_file() {
    let bench = Bench::new("list-out");
    bench.put("in", &image(&WORKED_HEAD, &worked_memory()));
    assert_eq!(
        bench.tool("list in --lines 9 --out text").done(),
        "listed in, wrote text\n"
    );
    assert_eq!(bench.get("text"), ADDING_LISTED.as_bytes());
    bench
        .tool("list in --lines 1 --out text")
        .wrote_nothing("text: there is such a file already; --replace would replace it");
    assert_eq!(bench.get("text"), ADDING_LISTED.as_bytes());
    bench.tool("list in --lines 1 --out text --replace").done();
    assert_eq!(bench.get("text"), b"0150 A7 AND A,A\n");
    bench
        .tool("list in --from 0 --bytes 0 --out new")
        .failed("not both; nothing was done");
    bench
        .tool("list absent --out new")
        .wrote_nothing("absent: there is no such file");
    bench
        .tool("list in --out absent/new")
        .wrote_nothing("absent/new: there is no such folder");
    bench.tool("list in --out -").failed("./- is one");
    assert_eq!(bench.names(), ["in", "text"]);
    bench.put("empty", &[]);
    bench.tool("list --part empty --from 0 --out new").done();
    assert_eq!(bench.get("new"), []);
}

/// What editions 002 to 004 of the reference call these, and what 001 does.
const OLD_AND_NEW: [(&[u8], &str, &str); 8] = [
    (&[0x22], "0150 22 LDI [HL],A\n", "0150 22 LD [HLI],A\n"),
    (&[0x2A], "0150 2A LDI A,[HL]\n", "0150 2A LD A,[HLI]\n"),
    (&[0x32], "0150 32 LDD [HL],A\n", "0150 32 LD [HLD],A\n"),
    (&[0x3A], "0150 3A LDD A,[HL]\n", "0150 3A LD A,[HLD]\n"),
    (
        &[0xE0, 0x80],
        "0150 E080 LDIO [$FF80],A\n",
        "0150 E080 LDH [$FF80],A\n",
    ),
    (
        &[0xF0, 0x80],
        "0150 F080 LDIO A,[$FF80]\n",
        "0150 F080 LDH A,[$FF80]\n",
    ),
    (&[0xE2], "0150 E2 LDIO [C],A\n", "0150 E2 LDH [C],A\n"),
    (&[0xF2], "0150 F2 LDIO A,[C]\n", "0150 F2 LDH A,[C]\n"),
];

#[test]
fn eight_opcodes_in_both_editions() {
    let bench = Bench::new("list-editions");
    for (part, old, new) in OLD_AND_NEW {
        bench.put("part", part);
        for (edition, text) in [
            ("", new),
            ("--edition new", new),
            ("--edition old", old),
            ("--edition=old", old),
        ] {
            let line = format!("list --part part --from 0150 {edition}");
            assert_eq!(bench.tool(&line).done(), text);
        }
    }
}

/// The adding routine in the old edition: one line is another.
fn adding_listed_old() -> String {
    ADDING_LISTED.replace("0154 22 LD [HLI],A\n", "0154 22 LDI [HL],A\n")
}

/// Every other opcode, with zeros for its operands, and one of the eight that the end cuts.
#[test]
fn no_other_opcode_has_two_spellings() {
    let bench = Bench::new("list-one-spelling");
    let differs = |opcode: &u8| OLD_AND_NEW.iter().any(|(part, ..)| part[0] == *opcode);
    let others = (0..=0xFF).filter(|opcode| !differs(opcode));
    let plain = others.flat_map(|opcode: u8| [opcode, 0x00, 0x00]);
    let prefixed = (0..=0xFF).flat_map(|second: u8| [0xCB, second]);
    let all: Vec<u8> = plain.chain(prefixed).chain([0xE0]).collect();
    bench.put("part", &all);
    let old = bench.tool("list --part part --from 0 --edition old").done();
    assert_eq!(old, bench.tool("list --part part --from 0").done());
    assert!(old.lines().count() > 500 && old.ends_with(" E0 DB $E0\n"));
}

#[test]
fn images_and_dumps_in_the_old_edition() {
    let bench = Bench::new("list-old-memory");
    bench.put("in", &image(&WORKED_HEAD, &worked_memory()));
    bench.put("dump", &worked_memory());
    for asked in [
        "in --lines 9",
        "in --from 0150 --lines 9",
        "in --bytes 0150..0159",
        "dump --from 150 --lines 9",
        "--dump dump --bytes 0150..0159",
    ] {
        let line = format!("list {asked} --edition old");
        assert_eq!(bench.tool(&line).done(), adding_listed_old());
        let line = format!("list --edition new {asked}");
        assert_eq!(bench.tool(&line).done(), ADDING_LISTED);
    }
    let next = bench.tool("list in --edition old").done();
    let twenty = format!("{}{}", adding_listed_old(), nops(0x015A..0x0165));
    assert_eq!(next, twenty);
    let whole = bench.tool("list dump --edition old").done();
    let before = nops(0..0x0150);
    assert!(whole.starts_with(&format!("{before}{}015A 00 NOP\n", adding_listed_old())));
    let fed = bench.fed("list - --edition old --bytes 154", &bench.get("in"));
    assert_eq!(fed.done(), "0154 22 LDI [HL],A\n");
}

#[test]
fn banks_in_the_old_edition() {
    let bench = Bench::new("list-old-banks");
    let parts: [(usize, &[u8]); 3] = [
        (0, &[0xF0, 0x44]),
        (2 * BANK, &[0x3A]),
        (3 * BANK - 1, &[0xE0]),
    ];
    bench.put("three", &zeros(3 * BANK, &parts));
    let listed = bench.tool("list three --edition old").done();
    let banks: Vec<&str> = listed.split("\n\n").collect();
    assert_eq!(banks.len(), 3);
    assert!(banks[0].starts_with("bank 0: $0000-$3FFF, 16,384 bytes\n0000 F044 LDIO A,[$FF44]\n"));
    assert!(banks[2].starts_with("bank 2: $4000-$7FFF, 16,384 bytes\n4000 3A LDD A,[HL]\n"));
    // What the end of a bank cuts is data, so that no spelling can differ.
    assert!(banks[2].ends_with("\n7FFF E0 DB $E0\n"));
    for (asked, text) in [
        ("three --bank 2 --lines 1", "4000 3A LDD A,[HL]\n"),
        ("three --bank 2 --bytes 4000", "4000 3A LDD A,[HL]\n"),
        ("three --lines 1", "0000 F044 LDIO A,[$FF44]\n"),
        ("--cartridge three --bytes 0", "0000 F044 LDIO A,[$FF44]\n"),
    ] {
        let line = format!("list {asked} --edition old");
        assert_eq!(bench.tool(&line).done(), text);
    }
    bench.put("one", &[0xE2, 0xC9]);
    let small = bench.tool("list one --edition old").done();
    assert_eq!(small, "0000 E2 LDIO [C],A\n0001 C9 RET\n");
}

#[test]
fn the_old_edition_to_a_file() {
    let bench = Bench::new("list-old-out");
    bench.put("in", &image(&WORKED_HEAD, &worked_memory()));
    let said = bench.tool("list in --lines 9 --edition old --out text");
    assert_eq!(said.done(), "listed in, wrote text\n");
    assert_eq!(bench.get("text"), adding_listed_old().as_bytes());
    bench
        .tool("list in --lines 9 --edition older --out new")
        .failed("--edition: found older, wanted old or new");
    bench.tool("list in --lines 9 --out text --replace").done();
    assert_eq!(bench.get("text"), ADDING_LISTED.as_bytes());
    assert_eq!(bench.names(), ["in", "text"]);
}

/// A name in small letters and nothing else. It is said before any file is read.
#[test]
fn other_editions() {
    let bench = Bench::new("list-no-edition");
    for (typed, found) in [
        ("OLD", "OLD"),
        ("New", "New"),
        ("1", "1"),
        ("2", "2"),
        ("3", "3"),
        ("older", "older"),
        (" old", " old"),
        ("", "nothing"),
        ("o\nld", "o?ld"),
    ] {
        let words = format!("--edition: found {found}, wanted old or new; nothing was done");
        for file in [&["absent"][..], &["--part", "absent", "--from", "0"]] {
            let words_typed = [&["list", "--edition", typed], file].concat();
            bench.call(&words_typed).failed(&words);
        }
        let joined = format!("--edition={typed}");
        bench.call(&["list", "absent", &joined]).failed(&words);
    }
}

/// What is not understood, and what is said of it.
const WRONG_USE: [(&str, &str); 22] = [
    (
        "list",
        "the form is: trnadulek-tool list (FILE | --part FILE --from ADDRESS)",
    ),
    ("list in in", "the form is: "),
    ("list in --part in --from 0", "the form is: "),
    ("list --dump in --cartridge in", "the form is: "),
    (
        "list --part in",
        "--part wants --from too, the address of its first byte",
    ),
    (
        "list --part in --from 10000",
        "--from: found 10000, wanted up to four hexadecimal digits",
    ),
    (
        "list --part in --from 0 --lines 3",
        "--lines is not for --part",
    ),
    (
        "list --part in --from 0 --bytes 0..1",
        "--bytes is not for --part",
    ),
    (
        "list --part in --from 0 --bank 1",
        "--bank is not for --part",
    ),
    ("list --part", "--part wants a file"),
    (
        "list in --lines 0",
        "--lines: found 0, wanted a number in decimal digits, 1 to 65,536",
    ),
    ("list in --lines 65537", "--lines: found 65537, wanted"),
    ("list in --lines ten", "--lines: found ten, wanted"),
    (
        "list in --bank 512",
        "--bank: found 512, wanted a number in decimal digits, 0 to 511",
    ),
    (
        "list in --bytes 2..1",
        "--bytes: found 2..1, wanted ADDRESS..ADDRESS",
    ),
    (
        "list in --bytes 0..1 --lines 3",
        "--bytes, or --from and --lines, not both",
    ),
    ("list in --replace", "--replace is for --out"),
    (
        "list in --score 0 1",
        "--score is for show, judge, not for list",
    ),
    (
        "show in --from 0",
        "--from is for list, assemble, not for show",
    ),
    (
        "show in --edition old",
        "--edition is for list, patch, not for show",
    ),
    ("list in --edition", "--edition wants old or new"),
    (
        "list in --edition old --edition new",
        "--edition is given twice",
    ),
];

#[test]
fn wrong_use() {
    let bench = Bench::new("list-usage");
    bench.put("in", &image(&WORKED_HEAD, &worked_memory()));
    for (line, words) in WRONG_USE {
        let answer = bench.tool(line);
        assert!(
            answer
                .err
                .ends_with("; nothing was done (--help says how)\n"),
            "{answer:?}"
        );
        answer.failed(words);
    }
    assert_eq!(bench.names(), ["in"]);
}

/// A reader who has seen enough may leave.
#[test]
fn large_files() {
    let bench = Bench::new("list-large");
    bench.put("cartridge", &vec![0x22; 512 * BANK]);
    let banks = bench
        .shell("\"$TOOL\" list cartridge | grep -c '^bank [0-9]*: '")
        .done();
    assert_eq!(banks, "512\n");
    // Each LD [HLI],A has the most text that a byte can have, 19 bytes.
    let length = bench
        .shell("\"$TOOL\" list --part cartridge --from 0 | wc -c")
        .done();
    assert_eq!(length, format!("{}\n", 19 * 512 * BANK));
    // So has each LDI [HL],A.
    let length = bench
        .shell("\"$TOOL\" list --part cartridge --from 0 --edition old | wc -c")
        .done();
    assert_eq!(length, format!("{}\n", 19 * 512 * BANK));
    let first = bench
        .shell("\"$TOOL\" list --part cartridge --from 0 | head -n 1")
        .done();
    assert_eq!(first, "0000 22 LD [HLI],A\n");
    bench.put("longer", &vec![0; 513 * BANK]);
    bench
        .tool("list longer")
        .failed("longer: found 8,404,992 bytes, wanted ");
    bench
        .tool("list --cartridge longer")
        .failed("longer: found 8,404,992 bytes, wanted a cart");
}
