mod common;

use common::*;

/// The worked example as an image, made by the tool.
fn made(name: &str) -> Bench {
    let bench = Bench::new(name);
    bench.put("dump", &worked_memory());
    let line = format!("make before.img --dump dump {WORKED_START}");
    assert_eq!(bench.tool(&line).done(), "made before.img\n");
    bench
}

#[test]
fn made_run_shown_compared() {
    let bench = made("worked");
    assert_eq!(
        bench.get("before.img"),
        image(&WORKED_HEAD, &worked_memory())
    );
    let ran = bench.tool("run before.img 30 after.img").done();
    assert_eq!(ran, "ran 30 cycles in 16 steps, wrote after.img\n");
    let shown = bench.tool("show after.img").done();
    assert_eq!(shown, format!("image    after.img\n{WORKED_SHOWN}"));
    assert_eq!(bench.get("after.img"), worked_after());
    assert_eq!(
        bench.tool("compare before.img after.img").no(),
        "AF       0000 -> 02C0\nBC       0200 -> 0000\nDE       C100 -> C102\n\
         HL       C000 -> C002\nSP       DFFE -> E000\nPC       0150 -> 1234\n\
         flags    ---- -> ZN--\n\
         $C000-$C001, 2 bytes  99 01 -> 00 02\nmemory: 2 bytes in 1 range differ\n"
    );
    assert_eq!(
        bench.tool("compare after.img after.img").done(),
        "the same\n"
    );
    assert_eq!(
        bench.get("before.img"),
        image(&WORKED_HEAD, &worked_memory())
    );
    assert_eq!(bench.names(), ["after.img", "before.img", "dump"]);
}

/// Moved from unit to unit in the middle, wherever that is: the registers and the sums stay.
#[test]
fn in_slices_it_is_one_run() {
    for slice in [1, 2, 7, 13, 29] {
        let bench = made(&format!("slices-{slice}"));
        bench.tool("run before.img 30 whole.img").done();
        let (mut spent, mut steps) = (0, 0);
        while spent < 30 {
            let budget = slice.min(30 - spent);
            let line = format!("run before.img {budget} before.img --replace");
            let (cycles, taken) = counts(&bench.tool(&line).done());
            spent += cycles;
            steps += taken;
        }
        assert_eq!((spent, steps), (30, 16));
        assert_eq!(bench.get("before.img"), worked_after());
        assert_eq!(
            bench.tool("compare before.img whole.img").done(),
            "the same\n"
        );
    }
}

/// Three times 65,536 turns of a loop come before the routine, so that it takes two slices.
#[test]
fn above_the_largest_budget() {
    // LD BC,0; then DEC BC, LD A,B, OR C, JR NZ until BC is 0 again.
    let wait = [0x01, 0, 0, 0x0B, 0x78, 0xB1, 0x20, 0xFB];
    let then = [0x06, 0x02, 0xC3, 0x50, 0x01]; // LD B,2; JP $0150
    let before = [&wait[..], &wait, &wait, &then].concat();
    let mut memory = worked_memory();
    memory[0x0200..0x0200 + before.len()].copy_from_slice(&before);
    let bench = Bench::new("above");
    bench.put("dump", &memory);
    bench
        .tool("make in.img --dump dump --pc 0200 --hl C000 --de C100 --sp DFFE")
        .done();
    // A wait: 3 + 65,536 * (2 + 1 + 1) + 65,535 * 3 + 2 cycles, 1 + 65,536 * 4 steps.
    let (cycles, steps) = (3 * 458_754 + 2 + 4 + 30, 3 * 262_145 + 2 + 16);
    let ran = bench.tool(&format!("run in.img {cycles} out.img")).done();
    assert_eq!(counts(&ran), (cycles, steps));
    let shown = bench.tool("show out.img").done();
    assert_eq!(shown, format!("image    out.img\n{WORKED_SHOWN}"));
}

/// JR to itself costs 3: the first slice spends 2 more than its budget, which the second has less.
#[test]
fn what_a_slice_spent_beyond_its_budget_counts() {
    let bench = Bench::new("beyond");
    bench.put("dump", &memory(&[(0, &[0x18, 0xFE])]));
    bench.tool("make in.img --dump dump").done();
    let ran = bench.tool("run in.img 2000000 out.img").done();
    assert_eq!(
        ran,
        "ran 2,000,001 cycles in 666,667 steps, wrote out.img\n"
    );
}

/// NOPs of one cycle: 30,000,000 less 457 * 65,536 is $C380.
#[test]
fn many_slices() {
    let bench = Bench::new("many-slices");
    bench.put("dump", &memory(&[]));
    bench.tool("make in.img --dump dump").done();
    let ran = bench.tool("run in.img 30000000 out.img").done();
    assert_eq!(counts(&ran), (30_000_000, 30_000_000));
    assert!(bench
        .tool("show out.img")
        .done()
        .contains("PC       C380\n"));
}

#[test]
fn budget_0_takes_no_step() {
    let bench = made("none");
    let ran = bench.tool("run before.img 0 after.img").done();
    assert_eq!(ran, "ran 0 cycles in 0 steps, wrote after.img\n");
    assert_eq!(bench.get("after.img"), bench.get("before.img"));
}

#[test]
fn a_cartridge_starts_as_on_the_first_model() {
    let bench = Bench::new("cartridge");
    let cartridge: Vec<u8> = (0..32_768).map(|at| (at % 251) as u8).collect();
    bench.put("full.gb", &cartridge);
    bench.tool("make full.img --cartridge full.gb").done();
    let head = [
        1, 0, 0, 0, 14, 0x01, 0xB0, 0x00, 0x13, 0x00, 0xD8, 0x01, 0x4D, 0xFF, 0xFE, 0x01, 0x00, 0,
        0, 0, 1, 0, 0,
    ];
    assert_eq!(
        bench.get("full.img"),
        image(&head, &memory(&[(0, &cartridge)]))
    );
}

#[test]
fn every_start_value_can_be_given() {
    let bench = Bench::new("values");
    let cartridge: Vec<u8> = (0..300).map(|at| (at % 251) as u8).collect();
    bench.put("short.gb", &cartridge);
    let all =
        "--af $1230 --bc 0x4567 --de 89ab --hl CDEF --sp 1 --pc 22 --ime arming --mode halted";
    bench
        .tool(&format!("make short.img --cartridge short.gb {all}"))
        .done();
    let shown = bench.tool("show short.img").done();
    assert!(
        shown.starts_with(
            "image    short.img\nAF       1230\nBC       4567\nDE       89AB\nHL       CDEF\n\
             SP       0001\nPC       0022\nflags    --HC\nIME      Arming\nmode     Halted\n"
        ),
        "{shown}"
    );
    let short = bench.get("short.img");
    assert_eq!(short[23..], memory(&[(0, &cartridge)]));
    // IME and mode by document 01's codes.
    assert_eq!(short[17..19], [1, 2]);
}

#[test]
fn cartridges_of_other_lengths() {
    let bench = Bench::new("cartridges");
    bench.put("long.gb", &[0; 32_769]);
    bench
        .tool("make long.img --cartridge long.gb")
        .wrote_nothing("found 32,769 bytes, wanted a cartridge of 1 to 32,768; banks are not");
    bench.put("empty.gb", &[]);
    bench
        .tool("make long.img --cartridge empty.gb")
        .wrote_nothing("found 0 bytes, wanted a cartridge of 1 to 32,768");
    assert!(!bench.0.join("long.img").exists());
}

#[test]
fn heads_are_shown_and_compared_too() {
    let bench = Bench::new("heads");
    bench.put("a", &WORKED_HEAD);
    bench.put("b", &with(&with(&WORKED_HEAD, 17, 2), 18, 1));
    let shown = bench.tool("show b").done();
    assert!(shown.starts_with("head     b\n"));
    assert!(shown.ends_with("IME      On\nmode     Repeat\n"));
    assert_eq!(bench.tool("check a").done(), "a: a valid head\n");
    assert_eq!(
        bench.tool("compare a b").no(),
        "IME      Off -> On\nmode     Running -> Repeat\n"
    );
    bench.put("c", &image(&WORKED_HEAD, &worked_memory()));
    assert_eq!(bench.tool("check c").done(), "c: a valid image\n");
    bench.tool("compare a c").failed("two of a kind");
}

#[test]
fn many_differences_end_in_a_count() {
    let bench = Bench::new("many");
    let mut other = worked_memory();
    other[0xD000..0xD014].fill(0xAA);
    (0x8000..0x8100).step_by(2).for_each(|at| other[at] = 1);
    other[0xFFFF] = 0x1F;
    bench.put("a", &image(&WORKED_HEAD, &worked_memory()));
    bench.put("b", &image(&WORKED_HEAD, &other));
    let compared = bench.tool("compare a b").no();
    let lines: Vec<_> = compared.lines().collect();
    assert_eq!(lines.len(), 42);
    assert_eq!(lines[0], "$8000  00 -> 01");
    assert_eq!(lines[40], "and 90 more ranges; --all shows them");
    assert_eq!(lines[41], "memory: 149 bytes in 130 ranges differ");

    let all = bench.tool("compare a b --all").no();
    let lines: Vec<_> = all.lines().collect();
    assert_eq!(lines.len(), 131);
    assert_eq!(lines[127], "$80FE  00 -> 01");
    let whole = |byte: &str| vec![byte; 20].join(" ");
    assert_eq!(
        lines[128],
        format!("$D000-$D013, 20 bytes  {} -> {}", whole("00"), whole("AA"))
    );
    assert_eq!(lines[129], "$FFFF  00 -> 1F");
    assert_eq!(lines[130], "memory: 149 bytes in 130 ranges differ");

    let mut other = worked_memory();
    other[0xFFEC..].fill(0xAA);
    bench.put("b", &image(&WORKED_HEAD, &other));
    let first = bench.tool("compare a b").out;
    let zeros = "00 00 00 00 00 00 00 00 ..";
    let line = format!(
        "$FFEC-$FFFF, 20 bytes  {zeros} -> {}\n",
        zeros.replace('0', "A")
    );
    assert!(first.starts_with(&line), "{first}");
}
