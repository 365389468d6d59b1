//! What the bench can see of an image, and putting its memory elsewhere and back.

mod common;

use common::*;

#[test]
fn interrupts_and_the_next_bytes() {
    let bench = Bench::new("interrupts");
    let mut memory = worked_memory();
    memory[0xFFFF] = 0xF5;
    memory[0xFF0F] = 0xE6;
    bench.put("in", &image(&WORKED_HEAD, &memory));
    let shown = bench.tool("show in").done();
    // AND A at PC $0150; 34 12 at SP $DFFE; of IE and IF only the low five bits are pending.
    assert!(
        shown.ends_with(
            "mode     Running\nIE       F5\nIF       E6\npending  04\nat PC    A7\nat SP    1234\n"
        ),
        "{shown}"
    );
}

/// The word at $FFFF has its high byte at $0000.
#[test]
fn the_word_at_the_very_end() {
    let bench = Bench::new("end");
    let head = with(&with(&WORKED_HEAD, 13, 0xFF), 14, 0xFF);
    bench.put(
        "in",
        &image(&head, &memory(&[(0, &[0xAB]), (0xFFFF, &[0xCD])])),
    );
    let shown = bench.tool("show in").done();
    assert!(shown.ends_with("at SP    ABCD\n"), "{shown}");
}

#[test]
fn bytes_in_hexadecimal() {
    let bench = Bench::new("bytes");
    bench.put("in", &image(&WORKED_HEAD, &worked_memory()));
    let shown = bench.tool("show in --bytes 0150..0161").done();
    assert_eq!(
        shown,
        "$0150  A7 1A 8E 27 22 13 05 20 F8 C9 00 00 00 00 00 00\n$0160  00 00\n"
    );
    assert_eq!(bench.tool("show in --bytes $C000").done(), "$C000  99\n");
    let shown = bench
        .tool("show in --bytes FFFF..FFFF --score C000 2 --bytes DFFE..DFFF")
        .done();
    assert_eq!(
        shown,
        "$FFFF  00\nscore $C000-$C001, 2 bytes: 199\n$DFFE  34 12\n"
    );
    let all = bench.tool("show in --bytes 0..FFFF").done();
    assert_eq!(all.lines().count(), 4_096);
}

#[test]
fn scores() {
    let bench = Bench::new("scores-shown");
    let digits: Vec<u8> = vec![0x99; 256];
    let parts: [(usize, &[u8]); 4] = [
        (0x8000, &digits),
        (0xC000, &[0x00, 0x02]),
        (0xC010, &[0x9A, 0x01]),
        (0xC020, &[0x09, 0x1F, 0x00, 0xA0, 0xFF]),
    ];
    bench.put("in", &image(&WORKED_HEAD, &memory(&parts)));
    for (asked, said) in [
        ("C000 2", "score $C000-$C001, 2 bytes: 200"),
        ("C000 1", "score $C000: 0"),
        ("C001 1", "score $C001: 2"),
        ("FFFF 1", "score $FFFF: 0"),
        (
            "C010 2",
            "score $C010-$C011, 2 bytes: no number, $C010 holds 9A",
        ),
        (
            "C020 2",
            "score $C020-$C021, 2 bytes: no number, $C021 holds 1F",
        ),
        (
            "C020 5",
            "score $C020-$C024, 5 bytes: no number, $C021 holds 1F, $C023 holds A0, $C024 holds FF",
        ),
    ] {
        let shown = bench.tool(&format!("show in --score {asked}")).done();
        assert_eq!(shown, format!("{said}\n"));
    }
    let shown = bench.tool("show in --score 8000 256").done();
    let nines = "9".repeat(512);
    assert_eq!(shown, format!("score $8000-$80FF, 256 bytes: {nines}\n"));
}

#[test]
fn a_head_has_no_memory() {
    let bench = Bench::new("no-memory");
    bench.put("head", &WORKED_HEAD);
    bench
        .tool("show head --bytes C000..C001")
        .failed("head: a head, and a head has no memory");
    bench
        .tool("show head --score C000 2")
        .failed("head: a head, and a head has no memory");
}

#[test]
fn memory_goes_out_and_comes_back() {
    let bench = Bench::new("out-and-back");
    let whole = image(&WORKED_HEAD, &worked_memory());
    bench.put("in", &whole);
    bench.put("after", &worked_after());
    assert_eq!(
        bench.tool("export after dump").done(),
        "exported $0000-$FFFF, 65,536 bytes, wrote dump\n"
    );
    assert_eq!(bench.get("dump"), worked_after()[23..]);
    assert_eq!(
        bench.tool("import in dump moved").done(),
        "put dump to $0000-$FFFF, 65,536 bytes, wrote moved\n"
    );
    assert_eq!(
        bench.get("moved"),
        image(&WORKED_HEAD, &worked_after()[23..])
    );

    bench.tool("export in part --bytes C000..C001").done();
    assert_eq!(bench.get("part"), [0x99, 0x01]);
    assert_eq!(
        bench.tool("import moved part back --at C000").done(),
        "put part to $C000-$C001, 2 bytes, wrote back\n"
    );
    assert_eq!(bench.get("back"), whole);
    bench.tool("import moved part high --at FFFE").done();
    assert_eq!(bench.get("high")[65_557..], [0x99, 0x01]);
}

#[test]
fn what_does_not_fit_is_not_imported() {
    let bench = Bench::new("unfit");
    bench.put("in", &image(&WORKED_HEAD, &worked_memory()));
    bench.put("part", &[0x99, 0x01]);
    bench.put("empty", &[]);
    bench.tool("import in part out").wrote_nothing(
        "part: refusal 1: memory length is not 65,536; found 2 bytes, wanted 65,536",
    );
    bench
        .tool("import in part out --at FFFF")
        .wrote_nothing("part: found 2 bytes, wanted 1 to 1 from $FFFF on");
    bench
        .tool("import in in out --at 0")
        .wrote_nothing("in: found 65,559 bytes, wanted 1 to 65,536 from $0000 on");
    bench
        .tool("import in empty out --at 0")
        .wrote_nothing("empty: found 0 bytes, wanted 1 to 65,536 from $0000 on");
    bench.put("head", &WORKED_HEAD);
    bench.tool("export head out").wrote_nothing("refusal 6: ");
    assert_eq!(bench.names(), ["empty", "head", "in", "part"]);
}
