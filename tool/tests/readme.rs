mod common;

use common::*;

/// Every example in the README, in its order and in one folder, says what stands there.
#[test]
fn the_readme_tells_the_truth() {
    let bench = Bench::new("readme");
    bench.put("score.dump", &worked_memory());
    // STOP at $0000, with every register 0.
    let stop = [0x10, 0x00];
    let zero = [
        1, 0, 0, 0, 14, 0, 0, 0, 0, 0, 0, 0, 0, 0, 0, 0, 0, 0, 0, 0, 1, 0, 0,
    ];
    bench.put("stops.img", &image(&zero, &memory(&[(0, &stop)])));
    bench.put("credit.txt", b"SCF\n");
    assert_eq!(holds(include_str!("../README.md"), &bench), 22);
}

/// The commands of docs/scores.md: two units that disagree about 199 and 1.
#[test]
fn the_page_about_scores_tells_the_truth() {
    let bench = Bench::new("scores");
    bench.put("start.img", &image(&WORKED_HEAD, &worked_memory()));
    bench.put("unit-1.img", &worked_after());
    bench.put("unit-2.img", &with_a_letter());
    assert_eq!(holds(include_str!("../../docs/scores.md"), &bench), 3);
}

/// Bytes among zeros.
fn among_zeros(length: usize, parts: &[(usize, &[u8])]) -> Vec<u8> {
    let mut bytes = vec![0; length];
    for (at, part) in parts {
        bytes[*at..at + part.len()].copy_from_slice(part);
    }
    bytes
}

/// A cartridge made by hand: entry point, header with right sums, a program with a table in it.
fn game() -> Vec<u8> {
    among_zeros(
        32_768,
        &[
            (0x0100, &[0x00, 0xC3, 0x50, 0x01]),
            (0x0104, &[0xCE, 0xED, 0x66, 0x66, 0xCC, 0x0D, 0x00, 0x0B]),
            (0x0134, b"BENCH"),
            (0x014D, &[0x87, 0x10, 0x21]),
            // LD SP,$FFFE; CALL $0160; LD HL,$015B; JR $0159; the table; XOR A,A and so on.
            (0x0150, &[0x31, 0xFE, 0xFF, 0xCD, 0x60, 0x01]),
            (0x0156, &[0x21, 0x5B, 0x01, 0x18, 0xFE]),
            (0x015B, &[0xD3, 0x10, 0x07, 0x09, 0x3E]),
            (0x0160, &[0xAF, 0xE0, 0x80, 0xC9]),
            (0x7FFF, &[0xC3]),
        ],
    )
}

/// Four banks, as the header says: its size is 1 and its sum right.
fn four_banks() -> Vec<u8> {
    let header: [(usize, &[u8]); 3] = [(0x0134, b"BENCH"), (0x0148, &[1]), (0x014D, &[0x86])];
    let bank_3: [(usize, &[u8]); 1] = [(0xC000, &[0x3E, 0x03, 0xC9])];
    among_zeros(65_536, &[&header[..], &bank_3[..]].concat())
}

/// The commands of docs/listing.md.
#[test]
fn the_page_about_listings_tells_the_truth() {
    let bench = Bench::new("listings");
    bench.put("game.gb", &game());
    bench.put("four.gb", &four_banks());
    bench.put("patch.bin", &[0x3E, 0x01, 0xE0, 0x80, 0xC9]);
    let page = include_str!("../../docs/listing.md");
    assert_eq!(holds(page, &bench), 16);
    // The page's first lines are document 02's, and stand there before any command.
    bench.put("example", &[0x20, 0xF8, 0xD3]);
    let example = bench.tool("list --part example --from 0150").done();
    let shown: String = example
        .lines()
        .map(|line| format!("    {line}\n"))
        .collect();
    assert_eq!(page.matches(&shown).count(), 1);
}

/// The rows of the page's table of two spellings: bytes, old, new. The tool spells each so.
#[test]
fn the_table_of_two_spellings_tells_the_truth() {
    let bench = Bench::new("spellings");
    let page = include_str!("../../docs/listing.md");
    let shown: [(&[u8], &str); 8] = [
        (&[0x22], "| `22` | `LDI [HL],A` | `LD [HLI],A` |"),
        (&[0x2A], "| `2A` | `LDI A,[HL]` | `LD A,[HLI]` |"),
        (&[0x32], "| `32` | `LDD [HL],A` | `LD [HLD],A` |"),
        (&[0x3A], "| `3A` | `LDD A,[HL]` | `LD A,[HLD]` |"),
        (
            &[0xE0, 0x80],
            "| `E080` | `LDIO [$FF80],A` | `LDH [$FF80],A` |",
        ),
        (
            &[0xF0, 0x80],
            "| `F080` | `LDIO A,[$FF80]` | `LDH A,[$FF80]` |",
        ),
        (&[0xE2], "| `E2` | `LDIO [C],A` | `LDH [C],A` |"),
        (&[0xF2], "| `F2` | `LDIO A,[C]` | `LDH A,[C]` |"),
    ];
    for (bytes, row) in shown {
        assert_eq!(page.matches(row).count(), 1, "{row}");
        let cells: Vec<&str> = row.split('`').collect();
        bench.put("part", bytes);
        for (edition, spelling) in [("old", cells[3]), ("new", cells[5])] {
            let line = format!("list --part part --from 0 --edition {edition}");
            let listed = bench.tool(&line).done();
            assert_eq!(listed, format!("0000 {} {spelling}\n", cells[1]));
        }
    }
}

/// The operands that the page has in its table are written so.
#[test]
fn the_table_of_operands_tells_the_truth() {
    let bench = Bench::new("operands");
    let page = include_str!("../../docs/listing.md");
    let shown: [(&[u8], &str); 8] = [
        (&[0x3E, 0x05], "LD A,$05"),
        (&[0xC3, 0x50, 0x01], "JP $0150"),
        (&[0x18, 0xFE], "JR $0159"),
        (&[0xE0, 0x80], "LDH [$FF80],A"),
        (&[0xE8, 0xFB], "ADD SP,-$05"),
        (&[0xF8, 0xFB], "LD HL,SP+-$05"),
        (&[0xCF], "RST $08"),
        (&[0xCB, 0x7C], "BIT 7,H"),
    ];
    for (bytes, spelling) in shown {
        bench.put("part", bytes);
        let listed = bench.tool("list --part part --from 0159").done();
        assert!(listed.ends_with(&format!(" {spelling}\n")), "{listed}");
        assert!(page.contains(&format!("`{spelling}`")), "{spelling}");
    }
}

/// The commands of docs/patching.md.
#[test]
fn the_page_about_patches_tells_the_truth() {
    let bench = Bench::new("patches");
    bench.put("game.gb", &game());
    bench.put("four.gb", &four_banks());
    bench.put("lives.txt", b"LD A,3\nLDH [$FF80],A\nRET\n");
    bench.put("wrong.txt", b"LD A,3\nLDH [$FF80],A\nLD A,300\nRET\n");
    bench.put("windows.txt", b"LD A,3\r\n");
    bench.put("clear.txt", b"XOR A,A\n");
    bench.put("clear3.txt", b"XOR A,A\nNOP\nNOP\n");
    bench.put("three.txt", b"LD A,4\n");
    assert_eq!(holds(include_str!("../../docs/patching.md"), &bench), 19);
}

/// Every line that the page's tables have in a cell before bytes, or before the number of a refusal,
/// gives that at $0150.
#[test]
fn the_tables_about_patches_tell_the_truth() {
    let bench = Bench::new("patch-tables");
    let page = include_str!("../../docs/patching.md");
    let mut told = 0;
    for row in page.lines().filter(|line| line.starts_with('|')) {
        let cells: Vec<&str> = row.split('|').map(str::trim).collect();
        for pair in cells.windows(2).filter(|pair| gives(pair[1])) {
            let text = pair[0].trim_matches('`');
            bench.put("text", format!("{text}\n").as_bytes());
            assert_eq!(given_by(&bench), pair[1].trim_matches('`'), "{text}");
            told += 1;
        }
    }
    assert_eq!(told, 10 + 16 + 42);
}

/// Whether a cell says what a line gives: bytes, or a number.
fn gives(cell: &str) -> bool {
    let digits = cell.trim_matches('`');
    let bytes = digits != cell && digits.len() % 2 == 0;
    let digit = |digit: char| digit.is_ascii_digit() || ('A'..='F').contains(&digit);
    (bytes || ["12", "14"].contains(&cell)) && !digits.is_empty() && digits.chars().all(digit)
}

/// The bytes of the file `text` at $0150, or the number that it is refused with.
fn given_by(bench: &Bench) -> String {
    let answer = bench.tool("assemble text out --from 0150 --replace");
    match answer.err.split_once("line 1: refusal ") {
        Some((_, said)) => said.split(':').next().unwrap().to_string(),
        None => {
            answer.done();
            let bytes = bench.get("out");
            bytes.iter().map(|byte| format!("{byte:02X}")).collect()
        }
    }
}
