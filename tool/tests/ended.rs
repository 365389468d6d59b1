//! Runs that do not come to their budget, and waking what is Stopped.

mod common;

use common::*;

/// LD HL,$C000; INC [HL]; INC [HL]; STOP: a game that scores 2 and stops.
const STOPPING: [u8; 7] = [0x21, 0x00, 0xC0, 0x34, 0x34, 0x10, 0x00];

fn game(name: &str, program: &[u8]) -> Bench {
    let bench = Bench::new(name);
    bench.put("dump", &memory(&[(0x0100, program)]));
    bench.tool("make game --dump dump --pc 0100").done();
    bench
}

#[track_caller]
fn score_2_and_stopped(bench: &Bench, file: &str) {
    assert_eq!(
        bench.tool(&format!("show {file} --score C000 1")).done(),
        "score $C000: 2\n"
    );
    let shown = bench.tool(&format!("show {file}")).done();
    assert!(shown.contains("\nPC       0107\n"), "{shown}");
    assert!(shown.contains("\nmode     Stopped\n"), "{shown}");
}

/// Its cycles: 3 for LD, 3 for each INC, 1 for STOP.
#[test]
fn a_game_that_stops_does_not_tear() {
    let bench = game("tearing", &STOPPING);
    for counted in [
        "10 cycles in 4 steps",
        "0 cycles in 0 steps",
        "0 cycles in 0 steps",
    ] {
        let ran = bench.tool("run game 1000 game --replace-ended");
        assert_eq!(ran.exit, Some(1));
        assert_eq!(ran.out, format!("ran {counted}, wrote game\n"));
        ran.complained("game: refusal 3: mode is Stopped when a step is due; PC is $0107");
        score_2_and_stopped(&bench, "game");
    }
    assert_eq!(bench.names(), ["dump", "game"]);
}

/// Without the word for it the save that the run started from stays, and the steps have a file of
/// their own, each time.
#[test]
fn the_start_stays_and_nothing_is_lost() {
    let bench = game("stays", &STOPPING);
    let start = bench.get("game");
    for name in ["game.ended", "game.ended-2", "game.ended-3"] {
        let ran = bench.tool("run game 1000 game --replace");
        assert_eq!(ran.exit, Some(1));
        assert_eq!(
            ran.out,
            format!(
                "ran 10 cycles in 4 steps, wrote {name}; game was not replaced \
                 (--replace-ended would)\n"
            )
        );
        ran.complained("refusal 3: ");
        assert_eq!(bench.get("game"), start);
        score_2_and_stopped(&bench, name);
    }
    // Where no step was taken there is nothing to write.
    let ran = bench.tool("run game.ended 1000 game.ended --replace");
    assert_eq!(ran.exit, Some(1));
    assert_eq!(
        ran.out,
        "ran 0 cycles in 0 steps, wrote nothing; game.ended was not replaced \
         (--replace-ended would)\n"
    );
    assert_eq!(bench.names().len(), 5);
}

/// The save is known by the file and not by its name.
#[test]
fn the_start_stays_under_any_name() {
    let bench = game("any-name", &STOPPING);
    let start = bench.get("game");
    std::os::unix::fs::symlink("game", bench.0.join("link")).unwrap();
    for line in [
        "run game 1000 link --replace",
        "run link 1000 game --replace",
        "run game 1000 ./game --replace",
    ] {
        let ran = bench.tool(line);
        assert_eq!(ran.exit, Some(1));
        assert!(ran.out.contains(" was not replaced"), "{ran:?}");
        assert_eq!(bench.get("game"), start);
    }
    // Another file is replaced, as was asked.
    bench.put("other", b"older");
    let ran = bench.tool("run game 1000 other --replace");
    assert_eq!(ran.exit, Some(1));
    assert_eq!(ran.out, "ran 10 cycles in 4 steps, wrote other\n");
    score_2_and_stopped(&bench, "other");
}

/// How a program ends: the refusal, what is counted, what the image shows, what is said.
struct End {
    program: &'static [u8],
    number: u8,
    counted: &'static str,
    shown: &'static str,
    found: &'static str,
}

/// INC A, INC A, and then STOP or an undefined opcode.
const ENDS: [End; 2] = [
    End {
        program: &[0x3C, 0x3C, 0x10, 0x00],
        number: 3,
        counted: "3 cycles in 3 steps",
        shown: "PC       0104\nflags    ----\nIME      Off\nmode     Stopped\n",
        found: "; PC is $0104",
    },
    End {
        program: &[0x3C, 0x3C, 0xD3],
        number: 4,
        counted: "2 cycles in 2 steps",
        shown: "PC       0102\nflags    ----\nIME      Off\nmode     Running\n",
        found: "; found $D3 at PC, which is $0102",
    },
];

/// The steps before stay, and the image has them.
#[test]
fn by_stop_and_by_an_undefined_opcode() {
    for end in &ENDS {
        let bench = game(&format!("early-{}", end.number), end.program);
        let refusal = format!("refusal {}: ", end.number);
        for budget in ["1000", "5000000"] {
            let ran = bench.tool(&format!("run game {budget} out --replace"));
            assert_eq!(ran.exit, Some(1));
            assert_eq!(ran.out, format!("ran {}, wrote out\n", end.counted));
            ran.complained(&refusal);
            ran.complained(end.found);
            let shown = bench.tool("show out").done();
            assert!(
                shown.starts_with("image    out\nAF       0200\n"),
                "{shown}"
            );
            assert!(shown.contains(end.shown), "{shown}");
        }
        // The refused step changes nothing, however often it is tried.
        let again = bench.tool("run out 10 again");
        assert_eq!(again.out, "ran 0 cycles in 0 steps, wrote again\n");
        again.complained(&refusal);
        assert_eq!(bench.get("again"), bench.get("out"));
    }
}

#[test]
fn stopped_with_budget_0_is_done() {
    let bench = Bench::new("stopped");
    bench.put("dump", &worked_memory());
    bench.tool("make in --dump dump --mode stopped").done();
    let ran = bench.tool("run in 0 out").done();
    assert_eq!(ran, "ran 0 cycles in 0 steps, wrote out\n");
}

/// INC A, STOP, INC A, and an undefined opcode: woken, it goes on after the STOP.
#[test]
fn what_is_stopped_can_be_woken() {
    let bench = game("woken", &[0x3C, 0x10, 0x00, 0x3C, 0xD3]);
    assert_eq!(bench.tool("run game 100 out").exit, Some(1));
    assert_eq!(
        bench.tool("wake out woken").done(),
        "woke it, PC is $0103, wrote woken\n"
    );
    assert_eq!(
        bench.tool("compare out woken").no(),
        "mode     Stopped -> Running\n"
    );
    let ran = bench.tool("run woken 100 on");
    assert_eq!(ran.out, "ran 1 cycle in 1 step, wrote on\n");
    ran.complained("refusal 4: ");
    assert!(bench.tool("show on").done().contains("\nAF       0200\n"));
    bench
        .tool("wake game other")
        .wrote_nothing("the mode is Running; only a Stopped image is woken");
    assert!(!bench.0.join("other").exists());
    bench.tool("wake out out --replace").done();
    assert_eq!(bench.get("out"), bench.get("woken"));
}
