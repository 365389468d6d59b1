//! Which unit is telling the truth about its score.

mod common;

use common::*;

/// Two units that ran the worked example for its 30 cycles.
fn units(name: &str) -> Bench {
    let bench = Bench::new(name);
    bench.put("start", &image(&WORKED_HEAD, &worked_memory()));
    bench.put("one", &worked_after());
    bench.put("two", &with_a_letter());
    bench
}

const RAN: &str = "start: ran 30 cycles in 16 steps\n";

#[test]
fn the_right_one() {
    let bench = units("right");
    assert_eq!(
        bench.tool("judge start 30 one").done(),
        format!("{RAN}one: right\nright: 1 of 1\n")
    );
    assert_eq!(
        bench.tool("judge start 30 one --score C000 2").done(),
        format!("{RAN}one: right\n  score $C000-$C001, 2 bytes: 200\nright: 1 of 1\n")
    );
}

#[test]
fn the_one_with_a_letter() {
    let bench = units("letter");
    let judged = bench.tool("judge start 30 two one two --score C000 2").no();
    let two = "two: not right, what is right -> what it claims\n  AF       02C0 -> 01C0\n  \
               $C000-$C001, 2 bytes  00 02 -> 9A 01\n  memory: 2 bytes in 1 range differ\n  \
               score $C000-$C001, 2 bytes: 200 -> no number, $C000 holds 9A\n";
    let one = "one: right\n  score $C000-$C001, 2 bytes: 200\n";
    assert_eq!(judged, format!("{RAN}{two}{one}{two}right: 1 of 3\n"));
    assert_eq!(bench.names(), ["one", "start", "two"]);
}

/// A register alone, a byte alone; and START itself, which is right after no cycles.
#[test]
fn any_difference_counts() {
    let bench = units("any");
    bench.put("register", &with(&worked_after(), 8, 0x01));
    let judged = bench.tool("judge start 30 register").no();
    assert!(judged.contains("\n  BC       0000 -> 0001\n"), "{judged}");
    bench.put("byte", &with(&worked_after(), 65_558, 0x80));
    let judged = bench.tool("judge start 30 byte").no();
    assert!(judged.contains("\n  $FFFF  00 -> 80\n"), "{judged}");
    let judged = bench.tool("judge start 0 start").done();
    assert!(judged.starts_with("start: ran 0 cycles in 0 steps\n"));
    bench.tool("judge start 30 start").no();
    // One step before the end, and two NOPs after it.
    bench.tool("judge start 26 one").no();
    bench.tool("judge start 32 one").no();
}

/// A claim that is no image is trouble, and the others are judged all the same.
#[test]
fn trouble_comes_before_no() {
    let bench = units("trouble");
    bench.put("cut", &worked_after()[..65_558]);
    let judged = bench.tool("judge start 30 two cut one");
    assert_eq!(judged.exit, Some(2));
    judged.complained("cut: refusal 6: ");
    assert!(judged.out.contains("two: not right"), "{judged:?}");
    assert!(judged.out.ends_with("one: right\nright: 1 of 3\n"));
    bench
        .tool("judge cut 30 one")
        .failed("found 65,558 bytes, wanted 65,559 for an image");
}

/// A run that is ended by STOP leaves an image too, and a unit that has it is right.
#[test]
fn a_run_that_ends_early() {
    let bench = Bench::new("judged-early");
    let start = image(&WORKED_HEAD, &memory(&[(0x0150, &[0x3C, 0x10, 0x00])]));
    bench.put("start", &start);
    // INC A and STOP: A 1, PC $0153, mode 3.
    let after = with(&with(&with(&start, 5, 1), 16, 0x53), 18, 3);
    bench.put("claim", &after);
    let judged = bench.tool("judge start 1000 claim").done();
    let lines: Vec<_> = judged.lines().collect();
    assert_eq!(lines[0], "start: ran 2 cycles in 2 steps");
    assert!(lines[1].starts_with("start: refusal 3: "), "{judged}");
    assert_eq!(lines[2..], ["claim: right", "right: 1 of 1"]);
}

#[test]
fn whole_ranges_if_asked() {
    let bench = units("ranges");
    let mut claim = worked_after();
    claim[23 + 0xD000..23 + 0xD010].fill(0x77);
    bench.put("claim", &claim);
    let judged = bench.tool("judge start 30 claim").no();
    assert!(judged.contains("00 .. -> 77"), "{judged}");
    let judged = bench.tool("judge start 30 claim --all").no();
    let whole = vec!["77"; 16].join(" ");
    assert!(judged.contains(&format!(" -> {whole}\n")), "{judged}");
}
