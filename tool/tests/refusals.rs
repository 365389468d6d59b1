mod common;

use common::*;

/// Every command that reads an image says the same of a damaged one, and writes nothing.
#[track_caller]
fn refused(bench: &Bench, bytes: &[u8], number: u8, found: &str) {
    bench.put("bad", bytes);
    bench.put("good", &image(&WORKED_HEAD, &worked_memory()));
    let words = format!("bad: refusal {number}: ");
    let checked = bench.tool("check bad").no();
    assert!(
        checked.starts_with(&words) && checked.ends_with(&format!("; {found}\n")),
        "{checked}"
    );
    for line in ["show bad", "compare good bad", "compare bad good"] {
        bench.tool(line).failed(&words);
        bench.tool(line).failed(found);
    }
    if bytes.len() != 23 {
        bench.tool("judge bad 30 good").failed(&words);
        let judged = bench.tool("judge good 30 bad good");
        assert_eq!(judged.exit, Some(2));
        judged.complained(&words);
        for line in [
            "run bad 30 out",
            "run bad 0 good --replace",
            "export bad out",
            "import bad good out",
            "wake bad out",
        ] {
            bench.tool(line).wrote_nothing(&words);
        }
    }
    assert_eq!(bench.names(), ["bad", "good"]);
    assert_eq!(bench.get("bad"), bytes);
    assert_eq!(bench.get("good"), image(&WORKED_HEAD, &worked_memory()));
}

#[test]
fn damaged_heads_and_images() {
    let bench = Bench::new("damaged");
    // Where the byte is, what it becomes, the number, and what is said of it.
    let damages = [
        (0, 0, 7, "byte 0, the version: found 0, wanted 1"),
        (0, 2, 7, "byte 0, the version: found 2, wanted 1"),
        (1, 1, 8, "bytes 1 to 4: found 16,777,230, wanted 14"),
        (4, 13, 8, "bytes 1 to 4: found 13, wanted 14"),
        (20, 0, 8, "bytes 19 to 22: found 0, wanted 65,536"),
        (22, 1, 8, "bytes 19 to 22: found 65,537, wanted 65,536"),
        (17, 3, 9, "byte 17, IME: found 3, wanted 0 to 2"),
        (18, 4, 9, "byte 18, the mode: found 4, wanted 0 to 3"),
        (
            6,
            0x01,
            2,
            "byte 6, F: found $01, wanted 0 as its second digit",
        ),
        (
            6,
            0xF8,
            2,
            "byte 6, F: found $F8, wanted 0 as its second digit",
        ),
    ];
    for (at, byte, number, found) in damages {
        let head = with(&WORKED_HEAD, at, byte);
        refused(&bench, &head, number, found);
        refused(&bench, &image(&head, &worked_memory()), number, found);
    }
}

#[test]
fn lengths_one_off() {
    let bench = Bench::new("lengths");
    let whole = image(&WORKED_HEAD, &worked_memory());
    let longer = [&whole[..], &[0; 7]].concat();
    for (bytes, length) in [
        (&whole[..0], "0"),
        (&whole[..22], "22"),
        (&whole[..24], "24"),
        (&whole[..65_558], "65,558"),
        (&longer[..65_560], "65,560"),
        (&longer[..], "65,566"),
    ] {
        let found = format!("found {length} bytes, wanted 23 for a head or 65,559 for an image");
        bench.put("bad", bytes);
        let checked = bench.tool("check bad").no();
        assert!(checked.starts_with("bad: refusal 6: "), "{checked}");
        assert!(checked.ends_with(&format!("; {found}\n")), "{checked}");
        bench.tool("show bad").failed(&found);
        let found = format!("found {length} bytes, wanted 65,559 for an image");
        bench.tool("run bad 30 out").wrote_nothing(&found);
        assert_eq!(bench.names(), ["bad"]);
    }
    bench.put("bad", &WORKED_HEAD);
    bench
        .tool("run bad 30 out")
        .wrote_nothing("found 23 bytes, wanted 65,559 for an image");
}

/// The order is 6, 7, 8, 9, 2.
#[test]
fn the_first_that_applies() {
    let bench = Bench::new("order");
    let mut head = WORKED_HEAD.to_vec();
    for (at, byte, number, found) in [
        (
            6,
            0x0F,
            2,
            "byte 6, F: found $0F, wanted 0 as its second digit",
        ),
        (18, 9, 9, "byte 18, the mode: found 9, wanted 0 to 3"),
        (19, 1, 8, "bytes 19 to 22: found 16,842,752, wanted 65,536"),
        (0, 3, 7, "byte 0, the version: found 3, wanted 1"),
    ] {
        head[at] = byte;
        refused(&bench, &head, number, found);
    }
    head.push(0);
    bench.put("bad", &head);
    bench.tool("show bad").failed("refusal 6: ");
}

/// The words for a number are the library's, which are document 01's.
#[test]
fn one_wording() {
    let bench = Bench::new("wording");
    let said = |head: &[u8]| {
        bench.put("bad", head);
        bench.tool("check bad").no()
    };
    for (at, byte, words) in [
        (6, 1, "refusal 2: low four bits of F are not 0;"),
        (0, 0, "refusal 7: version byte is not 1;"),
        (4, 0, "refusal 8: a block length is not 14, or not 65,536;"),
        (17, 9, "refusal 9: IME code above 2, or mode code above 3;"),
    ] {
        let line = said(&with(&WORKED_HEAD, at, byte));
        assert!(line.starts_with(&format!("bad: {words}")), "{line}");
    }
    let line = said(&[]);
    let words = "refusal 6: head, image or output slice of wrong length;";
    assert!(line.starts_with(&format!("bad: {words}")), "{line}");
    bench
        .tool("make out --dump bad")
        .wrote_nothing("refusal 1: memory length is not 65,536;");
}

#[test]
fn dumps_and_start_values() {
    let bench = Bench::new("dumps");
    bench.put("dump", &worked_memory());
    for (length, found) in [(0, "0"), (65_535, "65,535"), (70_000, "70,000")] {
        bench.put("wrong", &vec![0; length]);
        let made = bench.tool("make out --dump wrong");
        made.complained("wrong: refusal 1: ");
        made.wrote_nothing(&format!("; found {found} bytes, wanted 65,536;"));
    }
    bench
        .tool("make out --dump dump --af 0001")
        .wrote_nothing("refusal 2: low four bits of F are not 0; --af: found $01");
    assert_eq!(bench.names(), ["dump", "wrong"]);
}

/// Many files, a line each; the worst of them is the status.
#[test]
fn many_are_checked() {
    let bench = Bench::new("checked");
    bench.put("a", &WORKED_HEAD);
    bench.put("b", &image(&WORKED_HEAD, &worked_memory()));
    bench.put("c", &with(&WORKED_HEAD, 0, 9));
    assert_eq!(
        bench.tool("check a b").done(),
        "a: a valid head\nb: a valid image\n"
    );
    let checked = bench.tool("check a c b").no();
    let lines: Vec<_> = checked.lines().collect();
    assert_eq!(
        (lines[0], lines[2]),
        ("a: a valid head", "b: a valid image")
    );
    assert!(lines[1].starts_with("c: refusal 7: ") && lines.len() == 3);
    let checked = bench.tool("check absent c a");
    assert_eq!(checked.exit, Some(2));
    checked.complained("absent: there is no such file");
    assert_eq!(checked.out, format!("{}\n{}\n", lines[1], lines[0]));
}

const NOT_UNDERSTOOD: [&str; 45] = [
    "",
    "mend in",
    "show",
    "show in in",
    "show in --bytes",
    "show in --bytes C001..C000",
    "show in --bytes C000-C001",
    "show in --bytes C000..C001..C002",
    "show in --score C000",
    "show in --score C000 0",
    "show in --score FFFF 2",
    "show in --score C000 0x2",
    "show in --score C000 -1",
    "check",
    "check in --replace",
    "compare in",
    "compare in in --replace",
    "run in 30",
    "run in +30 out",
    "run in -1 out",
    "run in 1e6 out",
    "run in 0x10 out",
    "run in 99999999999999999999 out",
    "run in 30 out --af 0",
    "run in 30 out --fast",
    "run in 30 out --replace --replace",
    "judge in 30",
    "judge in in in",
    "judge in 30 in --score C000 many",
    "export in",
    "export in out --bytes 0..1 --bytes 2..3",
    "import in dump",
    "import in dump out --at 10000",
    "wake in",
    "wake in out --mode running",
    "make out",
    "make --dump dump",
    "make out --dump",
    "make out --dump dump --cartridge dump",
    "make out --dump dump --dump dump",
    "make out --dump dump --af 12345",
    "make out --dump dump --af +1",
    "make out --dump dump --pc zz",
    "make out --dump dump --ime maybe",
    "make out --dump dump --mode asleep",
];

#[test]
fn not_understood() {
    let bench = Bench::new("usage");
    bench.put("dump", &worked_memory());
    bench.put("in", &image(&WORKED_HEAD, &worked_memory()));
    for line in NOT_UNDERSTOOD {
        bench.tool(line).failed("(--help says how)");
        bench.tool(line).failed("; nothing was ");
    }
    bench.call(&["run", "in", "", "out"]).failed("the cycles: ");
    bench
        .tool("run in 1e6 out")
        .failed("the cycles: found 1e6, wanted a number in decimal digits");
    bench
        .tool("show in --score FFFF 2")
        .failed("--score: found 2, wanted a number of bytes, from $FFFF on 1 to 1;");
    bench
        .tool("mend in")
        .failed("there is no command mend, only make, show, check, run, compare, judge,");
    bench
        .tool("run in 30 out --af 0")
        .failed("--af is for make, not for run");
    bench
        .tool("make out --dump dump --mode asleep")
        .failed("--mode asleep: the name is not Running, Repeat, Halted or Stopped");
    assert_eq!(bench.names(), ["dump", "in"]);
}

/// The help has every command, and README the same table of statuses.
#[test]
fn the_help() {
    let bench = Bench::new("help");
    let help = bench.tool("--help").done();
    for name in [
        "make", "show", "check", "run", "compare", "judge", "export", "import", "list", "wake",
    ] {
        assert!(
            help.contains(&format!("\ntrnadulek-tool {name} ")),
            "{name}"
        );
    }
    let readme = include_str!("../README.md");
    for word in [
        "--replace",
        "--replace-ended",
        "Exit status",
        "--bytes",
        "--score",
        "--all",
        "--at",
        "--part",
        "--from",
        "--lines",
        "--bank",
        "--out",
    ] {
        assert!(help.contains(word) && readme.contains(word), "{word}");
    }
    assert_eq!(bench.tool("run --help").done(), help);
    assert_eq!(bench.tool("-h").done(), help);
    assert!(help.lines().all(|line| line.len() <= 100));
}
