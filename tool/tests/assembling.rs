//! Text as bytes, to a file of its own or into an image, a dump or a cartridge. The lines are document
//! 02's and the instruction reference's.

mod common;

use common::*;

const BANK: usize = 16_384;

/// The adding routine, in the old spelling and the new, with some of its numbers as sums.
const ADDING_TEXT: &str = "\
AND A,A
LD A,[DE]
ADC A,[HL]
DAA
LDI [HL],A
INC DE
DEC B
JR NZ,$0150+1
RET
";

fn bench(name: &str) -> Bench {
    let bench = Bench::new(name);
    bench.put("in", &image(&WORKED_HEAD, &worked_memory()));
    bench.put("ret", b"RET\n");
    bench.put("text", b"LD A,$05\nLDIO [$FF80],A\n");
    bench
}

/// What the tool says of a line at fault: status 1, one line on standard error, nothing written.
#[track_caller]
fn is_refused(answer: Answer, words: &str) {
    assert_eq!((answer.exit, answer.out.as_str()), (Some(1), ""));
    let line = format!("trnadulek-tool: {words}; nothing was written\n");
    assert_eq!(answer.err, line);
}

/// A file with bytes put into it.
fn put(bytes: &[u8], at: usize, part: &[u8]) -> Vec<u8> {
    let mut bytes = bytes.to_vec();
    bytes[at..at + part.len()].copy_from_slice(part);
    bytes
}

#[test]
fn a_text_s_bytes_alone() {
    let bench = Bench::new("assemble");
    bench.put("text", ADDING_TEXT.as_bytes());
    for (at, address) in ["0150", "$0150", "0x150", "150"].into_iter().enumerate() {
        let line = format!("assemble text out{at} --from {address}");
        let said = format!("assembled text to 10 bytes from $0150 on, wrote out{at}\n");
        assert_eq!(bench.tool(&line).done(), said);
        assert_eq!(bench.get(&format!("out{at}")), ADDING);
    }
    bench.put("one", b"JR NZ,$014A\n");
    bench.tool("assemble one two --from=0150").done();
    assert_eq!(bench.get("two"), [0x20, 0xF8]);
    bench.put("ret", b"RET\n");
    let said = bench.tool("assemble ret byte --from FFFF").done();
    assert_eq!(said, "assembled ret to 1 byte from $FFFF on, wrote byte\n");
}

/// The core's own answer: addresses count modulo 65,536, and no text has no bytes.
#[test]
fn texts_at_the_edges() {
    let bench = Bench::new("assemble-edges");
    let given: [(&str, &[u8], &[u8]); 6] = [
        ("FFFF", b"LD A,$12\nJR $0001\n", &[0x3E, 0x12, 0x18, 0xFE]),
        ("0", b"LDH [-128],A\n", &[0xE0, 0x80]),
        ("0", b"LD A,($12)\n", &[0x3E, 0x12]),
        ("0", b"LD A,[$FF80]\n", &[0xFA, 0x80, 0xFF]),
        ("0", b"DB -1\nDB 255\n", &[0xFF, 0xFF]),
        ("0", b"", &[]),
    ];
    for (from, text, bytes) in given {
        bench.put("text", text);
        let line = format!("assemble text out --from {from} --replace");
        bench.tool(&line).done();
        assert_eq!(bench.get("out"), bytes);
    }
    let said = bench.tool("assemble text none --from 0150").done();
    assert_eq!(
        said,
        "assembled text to 0 bytes from $0150 on, wrote none\n"
    );
}

#[test]
fn a_text_by_standard_input() {
    let bench = bench("assemble-stdin");
    let said = bench.fed("assemble - out --from 0150", ADDING_TEXT.as_bytes());
    let words = "assembled standard input to 10 bytes from $0150 on, wrote out\n";
    assert_eq!(said.done(), words);
    assert_eq!(bench.get("out"), ADDING);
    is_refused(
        bench.fed("assemble - new --from 0", b"NOP\nRET"),
        "standard input: line 2: refusal 12: a line of no such form; found \"RET\" and no line feed",
    );
    bench.fed("patch in - put --at C000", b"RET\n").done();
    assert_eq!(bench.get("put")[23 + 0xC000], 0xC9);
    let whole = bench.get("in");
    bench.fed("patch - ret put2 --at C000", &whole).done();
    assert_eq!(bench.get("put2"), bench.get("put"));
    bench
        .fed("patch - - new --at C000", &whole)
        .failed("standard input can be read only once");
    assert_eq!(bench.names(), ["in", "out", "put", "put2", "ret", "text"]);
}

/// What a listing has behind address and bytes is a text that gives its bytes back.
#[test]
fn a_listing_s_spellings_give_its_bytes_back() {
    let bench = Bench::new("assemble-back");
    let all = (0..=0xFFFFu16).flat_map(|pair| pair.to_be_bytes());
    bench.put("part", &all.collect::<Vec<u8>>());
    for edition in ["old", "new"] {
        let line = format!(
            "\"$TOOL\" list --part part --from C0DE --edition {edition} | cut -d' ' -f3- | \
             \"$TOOL\" assemble - {edition} --from C0DE"
        );
        bench.shell(&line).done();
        assert_eq!(bench.get(edition), bench.get("part"));
    }
}

/// The words for a line at fault, with its number and its text, for `assemble` and `patch`.
const FAULTS: [(&[u8], &str); 16] = [
    (
        b"NOP\nNOP\nld a,5\nNOP\n",
        "line 3: refusal 12: a line of no such form; found \"ld a,5\"",
    ),
    (
        b"NOP\nNOP\nLD A,256\nld a,5\n",
        "line 3: refusal 14: number or value out of range; found \"LD A,256\"",
    ),
    (
        b"NOP\nBIT (((((((((((((((((5))))))))))))))))),A\n",
        "line 2: refusal 13: nesting deeper than 16; \
         found \"BIT (((((((((((((((((5))))))))))))))))),A\"",
    ),
    (
        b"LD A,5",
        "line 1: refusal 12: a line of no such form; found \"LD A,5\" and no line feed",
    ),
    (
        b"NOP\n\nNOP\n",
        "line 2: refusal 12: a line of no such form; found \"\"",
    ),
    (
        b"NOP\r\n",
        "line 1: refusal 12: a line of no such form; found \"NOP\\r\"",
    ),
    (
        b"LD A, 5\n",
        "line 1: refusal 12: a line of no such form; found \"LD A, 5\"",
    ),
    (
        b"LD\tA,5 \n",
        "line 1: refusal 12: a line of no such form; found \"LD\\tA,5 \"",
    ),
    (
        b"NOP ; \"wait\"\n",
        "line 1: refusal 12: a line of no such form; found \"NOP ; \\\"wait\\\"\"",
    ),
    (
        b"0150 00 NOP\n",
        "line 1: refusal 12: a line of no such form; found \"0150 00 NOP\"",
    ),
    (
        b"LD A,\xC2\xA05\n\0",
        "line 1: refusal 12: a line of no such form; found \"LD A,\\xc2\\xa05\"",
    ),
    (
        b"LD HL,SP-5\n",
        "line 1: refusal 12: a line of no such form; found \"LD HL,SP-5\"",
    ),
    (
        b"LDH [$80],A\n",
        "line 1: refusal 14: number or value out of range; found \"LDH [$80],A\"",
    ),
    (
        b"JR $C082\n",
        "line 1: refusal 14: number or value out of range; found \"JR $C082\"",
    ),
    (
        b"LD A,65536-65530\n",
        "line 1: refusal 14: number or value out of range; found \"LD A,65536-65530\"",
    ),
    (
        b"ABCDEFGHIJ ABCDEFGHIJ ABCDEFGHIJ ABCDEFGHIJ ABCDEFGHIJ ABCDEFGHIJ ABCDEFGHIJ ABCDEFGHIJ\n",
        "line 1: refusal 12: a line of no such form; found \
         \"ABCDEFGHIJ ABCDEFGHIJ ABCDEFGHIJ ABCDEFGHIJ ABCDEFGHIJ ABCDEFGHIJ ABCDEFGHIJ ABC..\"",
    ),
];

#[test]
fn a_fault_has_its_line_and_nothing_is_written() {
    let bench = bench("faults");
    bench.put("old", b"the bytes of last week");
    for (text, words) in FAULTS {
        bench.put("text", text);
        let words = format!("text: {words}");
        is_refused(bench.tool("assemble text out --from C000"), &words);
        is_refused(
            bench.tool("assemble text old --from C000 --replace"),
            &words,
        );
        is_refused(bench.tool("patch in text out --at C000"), &words);
        is_refused(bench.tool("patch in text old --at C000 --replace"), &words);
        is_refused(bench.tool("patch in text in --at C000 --replace"), &words);
    }
    assert_eq!(bench.names(), ["in", "old", "ret", "text"]);
    assert_eq!(bench.get("old"), b"the bytes of last week");
    assert_eq!(bench.get("in"), image(&WORKED_HEAD, &worked_memory()));
}

/// A file that is there stays, unless --replace is said.
#[test]
fn a_file_that_is_there() {
    let bench = bench("assemble-there");
    bench.put("old", b"old");
    let there = "old: there is such a file already; --replace would replace it";
    bench.tool("assemble ret old --from 0").wrote_nothing(there);
    bench
        .tool("patch in ret old --at C000")
        .wrote_nothing(there);
    bench
        .tool("patch in ret in --at C000")
        .wrote_nothing("in: there is such a file already");
    bench
        .tool("assemble ret ret --from 0")
        .wrote_nothing("ret: there is such a file already");
    assert_eq!(bench.get("old"), b"old");
    bench.tool("assemble ret old --from 0 --replace").done();
    assert_eq!(bench.get("old"), [0xC9]);
    bench.tool("patch in ret in --at C000 --replace").done();
    let memory = put(&worked_memory(), 0xC000, &[0xC9]);
    assert_eq!(bench.get("in"), image(&WORKED_HEAD, &memory));
    bench
        .tool("assemble ret absent/out --from 0")
        .wrote_nothing("absent/out: there is no such folder");
    bench.tool("assemble ret - --from 0").failed("./- is one");
    bench.tool("patch in ret - --at C000").failed("./- is one");
    assert_eq!(bench.names(), ["in", "old", "ret", "text"]);
}

/// The head of an image stays, and every byte beside the patch.
#[test]
fn an_image() {
    let bench = bench("patch-image");
    bench.put("text", b"LD A,$10\nLDIO [$FF80],A\n");
    let said = bench.tool("patch in text out --at 0151").done();
    assert_eq!(
        said,
        "\
before
0151 1A LD A,[DE]
0152 8E ADC A,[HL]
0153 27 DAA
0154 22 LD [HLI],A
after
0151 3E10 LD A,$10
0153 E080 LDH [$FF80],A
patched $0151-$0154, 4 bytes, wrote out
"
    );
    let memory = put(&worked_memory(), 0x0151, &[0x3E, 0x10, 0xE0, 0x80]);
    assert_eq!(bench.get("out"), image(&WORKED_HEAD, &memory));
    let old = bench
        .tool("patch in text out2 --at 0151 --edition old")
        .done();
    let spelled = said.replace("LD [HLI],A", "LDI [HL],A");
    let spelled = spelled.replace("LDH [", "LDIO [");
    assert_eq!(old, spelled.replace("wrote out", "wrote out2"));
    let new = bench.tool("patch in text out3 --at 0151 --edition new");
    assert_eq!(new.done(), said.replace("wrote out", "wrote out3"));
}

#[test]
fn a_dump() {
    let bench = bench("patch-dump");
    bench.put("dump", &worked_memory());
    let said = bench.tool("patch dump ret out --at 0150").done();
    let listed = "before\n0150 A7 AND A,A\nafter\n0150 C9 RET\n";
    assert_eq!(said, format!("{listed}patched $0150, wrote out\n"));
    let patched = put(&worked_memory(), 0x0150, &[0xC9]);
    assert_eq!(bench.get("out"), patched);
    let named = bench.tool("patch --dump dump ret out2 --at 0150").done();
    assert_eq!(named, said.replace("wrote out", "wrote out2"));
    assert_eq!(bench.get("out2"), patched);
}

/// What is left of an instruction is read as others: the listings go on to where both are in step.
#[test]
fn what_is_left_of_an_instruction_is_shown() {
    let bench = bench("patch-left");
    // LD SP,$FFFE; CALL $0160; LD HL,$015B; JR to itself.
    let program = [
        0x31, 0xFE, 0xFF, 0xCD, 0x60, 0x01, 0x21, 0x5B, 0x01, 0x18, 0xFE,
    ];
    bench.put("dump", &memory(&[(0x0150, &program)]));
    bench.put("text", b"XOR A,A\n");
    let said = bench.tool("patch dump text out --at 0153").done();
    assert_eq!(
        said,
        "\
before
0153 CD6001 CALL $0160
0156 215B01 LD HL,$015B
0159 18FE JR $0159
after
0153 AF XOR A,A
0154 60 LD H,B
0155 01215B LD BC,$5B21
0158 0118FE LD BC,$FE18
patched $0153, wrote out
"
    );
    // With the instruction's whole length there is nothing left.
    bench.put("text", b"XOR A,A\nNOP\nNOP\n");
    let said = bench.tool("patch dump text out2 --at 0153").done();
    let listed = "0153 CD6001 CALL $0160\nafter\n0153 AF XOR A,A\n0154 00 NOP\n0155 00 NOP\n";
    assert_eq!(
        said,
        format!("before\n{listed}patched $0153-$0155, 3 bytes, wrote out2\n")
    );
    // Data that the bytes behind it make an instruction of is shown as one.
    bench.put("text", b"DB $C3\n");
    let said = bench.tool("patch dump text out3 --at 0150").done();
    let listed = "0150 31FEFF LD SP,$FFFE\nafter\n0150 C3FEFF JP $FFFE\n";
    assert_eq!(said, format!("before\n{listed}patched $0150, wrote out3\n"));
}

/// Where the two never come into step, twenty lines behind the patch are enough.
#[test]
fn listings_that_do_not_come_into_step() {
    let bench = bench("patch-step");
    bench.put("ones", &[0x01; 2 * BANK]);
    bench.put("text", b"NOP\nNOP\nNOP\nNOP\n");
    let said = bench.tool("patch ones text out --at 0000").done();
    let (before, after) = said.split_once("after\n").unwrap();
    assert!(before.starts_with("before\n0000 010101 LD BC,$0101\n0003 010101 LD BC,$0101\n"));
    assert!(before.ends_with("\n003F 010101 LD BC,$0101\n..\n"));
    assert!(after.starts_with("0000 00 NOP\n0001 00 NOP\n0002 00 NOP\n0003 00 NOP\n0004 0101"));
    assert!(after.ends_with("\n..\npatched $0000-$0003, 4 bytes, wrote out\n"));
    assert_eq!(after.lines().count(), 4 + 20 + 2);
}

#[test]
fn a_cartridge_of_two_banks_is_one_part() {
    let bench = bench("patch-two");
    bench.put("two", &[0; 2 * BANK]);
    bench.put("text", b"JP $1234\n");
    let said = bench.tool("patch two text out --at 3FFF").done();
    let listed = "3FFF 00 NOP\n4000 00 NOP\n4001 00 NOP\nafter\n3FFF C33412 JP $1234\n";
    assert_eq!(
        said,
        format!("before\n{listed}patched $3FFF-$4001, 3 bytes, wrote out\n")
    );
    let patched = put(&[0; 2 * BANK], 0x3FFF, &[0xC3, 0x34, 0x12]);
    assert_eq!(bench.get("out"), patched);
    // With --bank it is that bank alone.
    let said = bench.tool("patch two text out2 --at 4000 --bank 1").done();
    assert!(said.ends_with("\npatched bank 1, $4000-$4002, 3 bytes, wrote out2\n"));
    is_refused(
        bench.tool("patch two text out3 --at 3FFF --bank 0"),
        "text: line 1: refusal 10: output too short; \
         found \"JP $1234\", which goes past $3FFF, the end of bank 0",
    );
    bench.put("tiny", &[0x00, 0xC9]);
    let said = bench.tool("patch --cartridge tiny ret out4 --at 0").done();
    assert_eq!(
        said,
        "before\n0000 00 NOP\nafter\n0000 C9 RET\npatched $0000, wrote out4\n"
    );
    assert_eq!(bench.get("out4"), [0xC9, 0xC9]);
}

#[test]
fn one_bank_of_many() {
    let bench = bench("patch-banks");
    bench.put("eight", &[0; 8 * BANK]);
    bench.put("text", b"JR $4002\nRET\n");
    let said = bench.tool("patch eight text out --at 4000 --bank 5").done();
    let listed = "4000 00 NOP\n4001 00 NOP\n4002 00 NOP\nafter\n4000 1800 JR $4002\n4002 C9 RET\n";
    assert_eq!(
        said,
        format!("before\n{listed}patched bank 5, $4000-$4002, 3 bytes, wrote out\n")
    );
    let patched = put(&[0; 8 * BANK], 5 * BANK, &[0x18, 0x00, 0xC9]);
    assert_eq!(bench.get("out"), patched);
    let said = bench.tool("patch eight ret out2 --at 0150").done();
    assert!(said.ends_with("\npatched bank 0, $0150, wrote out2\n"));
    assert_eq!(bench.get("out2"), put(&[0; 8 * BANK], 0x0150, &[0xC9]));
}

/// The last bytes of the memory, of a cartridge and of a bank can be patched, and nothing past them.
#[test]
fn up_to_the_end_and_past_it() {
    let bench = bench("patch-end");
    bench.put("dump", &worked_memory());
    bench.put("two", &[0; 2 * BANK]);
    bench.put("odd", &[0; 100]);
    bench.put("eight", &[0; 8 * BANK]);
    bench.put("fits", b"NOP\nSTOP\n");
    bench.put("past", b"NOP\nSTOP\nNOP\nJP 0\n");
    bench.put("over", b"NOP\nJP 0\n");
    let given = [
        ("in", "FFFD", 23 + 0xFFFD, "$FFFF, the end of the memory"),
        ("dump", "FFFD", 0xFFFD, "$FFFF, the end of the memory"),
        ("two", "7FFD", 0x7FFD, "$7FFF, the end of the cartridge"),
        ("odd", "0061", 0x61, "$0063, the end of the cartridge"),
        ("eight", "3FFD", 0x3FFD, "$3FFF, the end of bank 0"),
        ("eight --bank 0", "3FFD", 0x3FFD, "$3FFF, the end of bank 0"),
        (
            "eight --bank 3",
            "7FFD",
            4 * BANK - 3,
            "$7FFF, the end of bank 3",
        ),
    ];
    for (file, at, place, end) in given {
        let name = file.split(' ').next().unwrap();
        let patch =
            |text: &str| bench.tool(&format!("patch {file} {text} out --at {at} --replace"));
        patch("fits").done();
        let patched = put(&bench.get(name), place, &[0x00, 0x10, 0x00]);
        assert_eq!(bench.get("out"), patched);
        is_refused(
            patch("past"),
            &format!(
                "past: line 3: refusal 10: output too short; found \"NOP\", which goes past {end}"
            ),
        );
        is_refused(
            patch("over"),
            &format!(
                "over: line 2: refusal 10: output too short; found \"JP 0\", which goes past {end}"
            ),
        );
        assert_eq!(bench.get("out"), patched);
    }
}

#[test]
fn banks_and_addresses_that_are_not_there() {
    let bench = bench("patch-no-bank");
    bench.put("eight", &[0; 8 * BANK]);
    bench.put("two", &[0; 2 * BANK]);
    for (line, words) in [
        (
            "eight ret out --at 0 --bank 8",
            "eight: there is no bank 8, only banks 0 to 7",
        ),
        (
            "eight ret out --at 4000",
            "eight: $4000 is not in bank 0; --bank says which of banks 1 to 7 is meant",
        ),
        (
            "eight ret out --at 0100 --bank 5",
            "eight: there is no $0100, only $4000-$7FFF, 16,384 bytes",
        ),
        (
            "eight ret out --at 4000 --bank 0",
            "eight: there is no $4000, only $0000-$3FFF, 16,384 bytes",
        ),
        (
            "two ret out --at 8000",
            "two: there is no $8000, only $0000-$7FFF, 32,768 bytes",
        ),
        (
            "in ret out --at 0 --bank 0",
            "in: no cartridge, so it has no banks",
        ),
    ] {
        bench.tool(&format!("patch {line}")).wrote_nothing(words);
    }
    assert_eq!(bench.names(), ["eight", "in", "ret", "text", "two"]);
}

#[test]
fn what_cannot_be_patched() {
    let bench = bench("patch-unknown");
    bench.put("head", &WORKED_HEAD);
    bench.put("cut", &[0; 65_558]);
    bench.put("bad", &image(&with(&WORKED_HEAD, 0, 2), &worked_memory()));
    bench.put("short", &[0; 65_535]);
    bench.put("empty", b"");
    let mut four = [0; 4 * BANK];
    four[0x0134..0x0139].copy_from_slice(b"BENCH");
    (four[0x0148], four[0x014D]) = (1, 0x86);
    bench.put("four", &four);
    let names = bench.names();
    for (line, words) in [
        ("head ret", "head: a head, and a head has no memory"),
        (
            "cut ret",
            "32,768 or of whole banks of 16,384; --cartridge takes it as it is; nothing was",
        ),
        ("bad ret", "bad: refusal 7: version byte is not 1"),
        (
            "--dump short ret",
            "short: refusal 1: memory length is not 65,536",
        ),
        (
            "--cartridge empty ret",
            "empty: found 0 bytes, wanted a cart",
        ),
        (
            "four ret",
            "four: a dump, or a cartridge of four banks; --dump",
        ),
        ("in empty", "empty: found 0 bytes, wanted a line or more"),
        ("in absent", "absent: there is no such file"),
        ("absent ret", "absent: there is no such file"),
    ] {
        let line = format!("patch {line} out --at 0");
        bench.tool(&line).wrote_nothing(words);
    }
    assert_eq!(bench.names(), names);
    bench.tool("patch --dump four ret out --at C000").done();
    bench
        .tool("patch --cartridge four ret out2 --at 4000 --bank 3")
        .done();
    assert_eq!(bench.get("out"), bench.get("out2"));
}

/// What is not understood, and what is said of it.
const WRONG_USE: [(&str, &str); 18] = [
    (
        "assemble",
        "the form is: trnadulek-tool assemble TEXT OUT --from ADDRESS",
    ),
    ("assemble ret out", "the form is: "),
    ("assemble ret --from 0", "the form is: "),
    ("assemble ret out more --from 0", "the form is: "),
    (
        "assemble ret out --from 10000",
        "--from: found 10000, wanted up to four hexadecimal digits",
    ),
    ("assemble ret out --from", "--from wants an address"),
    (
        "assemble ret out --from 0 --edition old",
        "--edition is for list, patch, not for assemble",
    ),
    (
        "assemble ret out --at 0",
        "--at is for import, patch, not for assemble",
    ),
    (
        "patch",
        "the form is: trnadulek-tool patch FILE TEXT OUT --at ADDRESS [--bank N]",
    ),
    ("patch in ret out", "the form is: "),
    ("patch in ret --at 0", "the form is: "),
    ("patch in ret out more --at 0", "the form is: "),
    ("patch in ret out --dump in --at 0", "the form is: "),
    (
        "patch ret out --dump in --cartridge in --at 0",
        "the form is: ",
    ),
    (
        "patch in ret out --at C000 --edition OLD",
        "--edition: found OLD, wanted old or new",
    ),
    (
        "patch in ret out --at C000 --bank 512",
        "--bank: found 512, wanted a number in decimal digits, 0 to 511",
    ),
    ("patch in ret out --at $10000", "--at: found $10000, wanted"),
    (
        "patch in ret out --from 0",
        "--from is for list, assemble, not for patch",
    ),
];

#[test]
fn wrong_use() {
    let bench = bench("assemble-usage");
    for (line, words) in WRONG_USE {
        let answer = bench.tool(line);
        let end = "; nothing was done (--help says how)\n";
        assert!(answer.err.ends_with(end), "{answer:?}");
        answer.failed(words);
    }
    assert_eq!(bench.names(), ["in", "ret", "text"]);
}

/// What was written is said where standard output cannot be, and the file is there.
#[test]
fn standard_output_that_fails() {
    let bench = bench("assemble-stdout");
    let answer = bench.shell("exec \"$TOOL\" patch in ret out --at 0150 > /dev/full");
    answer.failed("; patched $0150, wrote out\n");
    assert_eq!(bench.get("out")[23 + 0x0150], 0xC9);
    let answer = bench.shell("exec \"$TOOL\" assemble ret out2 --from 0 > /dev/full");
    answer.failed("; assembled ret to 1 byte from $0000 on, wrote out2\n");
}

#[test]
fn a_large_text() {
    let bench = bench("assemble-large");
    bench.put("large", "LD HL,$1234\n".repeat(100_000).as_bytes());
    let said = bench.tool("assemble large out --from 0").done();
    assert_eq!(
        said,
        "assembled large to 300,000 bytes from $0000 on, wrote out\n"
    );
    assert_eq!(bench.get("out"), [0x21, 0x34, 0x12].repeat(100_000));
    is_refused(
        bench.tool("patch in large out2 --at 0"),
        "large: line 21846: refusal 10: output too short; \
         found \"LD HL,$1234\", which goes past $FFFF, the end of the memory",
    );
}

/// No file may grow beyond 8 blocks, as on a disk that is full.
#[test]
fn a_full_disk() {
    let bench = bench("assemble-full");
    bench.put("large", "JP 0\n".repeat(20_000).as_bytes());
    let (before, names) = (bench.get("in"), bench.names());
    let full = "trap '' XFSZ; ulimit -f 8; exec \"$TOOL\"";
    for line in [
        "patch in ret out --at 0150",
        "patch in ret in --at 0150 --replace",
        "assemble large out --from 0",
    ] {
        let answer = bench.shell(&format!("{full} {line}"));
        answer.wrote_nothing("File too large");
        assert_eq!(
            (bench.get("in"), bench.names()),
            (before.clone(), names.clone())
        );
    }
}

#[test]
fn what_is_no_file_is_not_read() {
    let bench = bench("assemble-unread");
    // Nobody writes to it: to open it would be to wait for ever.
    bench.shell("mkfifo pipe").silent(0);
    for (name, words) in [
        ("absent", "absent: there is no such file"),
        (".", ".: a folder, no file"),
        ("pipe", "pipe: a pipe, no file"),
        ("in/in", "in/in: a part of its path is no folder"),
    ] {
        for line in [
            format!("assemble {name} out --from 0"),
            format!("patch in {name} out --at 0"),
            format!("patch {name} ret out --at 0"),
            format!("patch --cartridge {name} ret out --at 0"),
        ] {
            bench.tool(&line).wrote_nothing(words);
        }
    }
}
