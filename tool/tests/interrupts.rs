//! Games that wait by HALT and have their score counted by a handler (document 02, M-100).

mod common;

use common::*;

/// EI; HALT; INC B; JR to the EI: a game that waits for a frame, over and over, and counts in B how
/// often it has gone on.
const GAME: [u8; 5] = [0xFB, 0x76, 0x04, 0x18, 0xFB];
/// INC [HL]; RETI.
const HANDLER: [u8; 2] = [0x34, 0xD9];

/// The game's memory, with a frame that has come before the game waits for it.
fn waiting_memory() -> Vec<u8> {
    memory(&[
        (0x0040, &HANDLER),
        (0x0150, &GAME),
        (0xFF0F, &[0x01]),
        (0xFFFF, &[0x01]),
    ])
}

/// The game as an image, made by the tool.
fn made(name: &str) -> Bench {
    let bench = Bench::new(name);
    bench.put("dump", &waiting_memory());
    let made = bench.tool("make game --dump dump --pc 0150 --hl C000 --sp DFFE");
    assert_eq!(made.done(), "made game\n");
    bench
}

/// The game's image once it waits, byte for byte: HL $C000, SP $DFFE, PC $0152, On, Halted. The
/// handler has counted 1, and the HALT's address is what it returned to.
fn waiting() -> Vec<u8> {
    let head = [
        1, 0, 0, 0, 14, 0, 0, 0, 0, 0, 0, 0xC0, 0, 0xDF, 0xFE, 0x01, 0x52, 2, 2, 0, 1, 0, 0,
    ];
    let mut memory = waiting_memory();
    memory[0xC000] = 1;
    memory[0xDFFC..0xDFFE].copy_from_slice(&[0x51, 0x01]);
    memory[0xFF0F] = 0;
    image(&head, &memory)
}

/// EI 1, HALT 1, dispatch 5, INC [HL] 3, RETI 4, and HALT 1.
#[test]
fn the_handler_counts_and_returns_to_the_halt() {
    let bench = made("halt-counted");
    let ran = bench.tool("run game 15 after").done();
    assert_eq!(ran, "ran 15 cycles in 6 steps, wrote after\n");
    assert_eq!(bench.get("after"), waiting());
    assert_eq!(
        bench.tool("show after --score C000 1").done(),
        "score $C000: 1\n"
    );
    assert_eq!(
        bench.tool("show after").done(),
        "image    after\nAF       0000\nBC       0000\nDE       0000\nHL       C000\n\
         SP       DFFE\nPC       0152\nflags    ----\nIME      On\nmode     Halted\n\
         IE       01\nIF       00\npending  00\nat PC    04\nat SP    0000\n"
    );
    assert_eq!(
        bench.tool("compare game after").no(),
        "PC       0150 -> 0152\nIME      Off -> On\nmode     Running -> Halted\n\
         $C000  00 -> 01\n$DFFC-$DFFD, 2 bytes  00 00 -> 51 01\n$FF0F  01 -> 00\n\
         memory: 4 bytes in 3 ranges differ\n"
    );
    // It waits for as long as no frame comes.
    bench.tool("run after 1000 later").done();
    assert_eq!(bench.tool("compare after later").done(), "the same\n");
}

/// Moved to another unit after every step.
#[test]
fn step_by_step_it_is_the_same() {
    let bench = made("halt-steps");
    for (cycles, pc, ime, mode, at_sp) in [
        (1, "0151", "Arming", "Running", "0000"),
        (1, "0151", "On", "Running", "0000"),
        (5, "0040", "Off", "Running", "0151"),
        (3, "0041", "Off", "Running", "0151"),
        (4, "0151", "On", "Running", "0000"),
        (1, "0152", "On", "Halted", "0000"),
    ] {
        let ran = bench.tool("run game 1 game --replace").done();
        assert_eq!(counts(&ran), (cycles, 1));
        let shown = bench.tool("show game").done();
        let registers = format!("PC       {pc}\nflags    ----\nIME      {ime}\nmode     {mode}\n");
        assert!(shown.contains(&registers), "{shown}");
        assert!(shown.ends_with(&format!("at SP    {at_sp}\n")), "{shown}");
    }
    assert_eq!(bench.get("game"), waiting());
}

/// The next frame comes while the game waits: it goes on, and waits again. Dispatch 5, INC [HL] 3,
/// RETI 4, INC B 1, JR 3, EI 1, HALT 1.
#[test]
fn the_next_frame() {
    let bench = made("halt-next");
    bench.tool("run game 15 after").done();
    bench.put("frame", &[0x01]);
    bench.tool("import after frame told --at FF0F").done();
    let ran = bench.tool("run told 18 next").done();
    assert_eq!(ran, "ran 18 cycles in 7 steps, wrote next\n");
    assert_eq!(
        bench.tool("compare after next").no(),
        "BC       0000 -> 0100\n$C000  01 -> 02\n$DFFC  51 -> 52\n\
         memory: 2 bytes in 2 ranges differ\n"
    );
}

/// A unit that goes on after the HALT, as if the frame had come while it waited: after 14 cycles it
/// is where the INC B is, and that is its 15th.
#[test]
fn a_unit_that_goes_past_the_halt_is_not_right() {
    let bench = made("halt-judged");
    let mut past = waiting();
    past[7] = 1; // B
    past[16] = 0x53;
    past[18] = 0; // Running
    past[23 + 0xDFFC] = 0x52;
    bench.put("right", &waiting());
    bench.put("past", &past);
    assert_eq!(
        bench.tool("judge game 15 past right --score C000 1").no(),
        "game: ran 15 cycles in 6 steps\n\
         past: not right, what is right -> what it claims\n  \
         BC       0000 -> 0100\n  PC       0152 -> 0153\n  mode     Halted -> Running\n  \
         $DFFC  51 -> 52\n  memory: 1 byte in 1 range differ\n  score $C000: 1\n\
         right: right\n  score $C000: 1\nright: 1 of 2\n"
    );
}

/// In Repeat the HALT's byte is at PC as given.
#[test]
fn a_halt_in_repeat() {
    let bench = Bench::new("halt-repeat");
    bench.put("dump", &waiting_memory());
    let line = "make game --dump dump --pc 0151 --sp DFFE --ime arming --mode repeat";
    bench.tool(line).done();
    let ran = bench.tool("run game 1 after").done();
    assert_eq!(ran, "ran 1 cycle in 1 step, wrote after\n");
    assert_eq!(
        bench.tool("compare game after").no(),
        "IME      Arming -> On\nmode     Repeat -> Running\n"
    );
    bench.tool("run after 1 served").done();
    let shown = bench.tool("show served").done();
    assert!(shown.contains("\nPC       0040\n"), "{shown}");
    assert!(shown.ends_with("at SP    0151\n"), "{shown}");
}

/// SP and PC before a dispatch, IE and IF, and what differs after it.
struct Dispatch {
    start: &'static str,
    enabled: u8,
    raised: u8,
    differs: &'static str,
}

/// At SP 0 and $FF10 the high byte of PC is stored over IE and IF: it takes every request away, so
/// that PC is 0, or changes which is served. At SP $FF11 the low byte is, too late for that.
const DISPATCHES: [Dispatch; 3] = [
    Dispatch {
        start: "--sp 0000 --pc 20F1",
        enabled: 0x1F,
        raised: 0x1F,
        differs: "SP       0000 -> FFFE\nPC       20F1 -> 0000\nIME      On -> Off\n\
                  $FFFE-$FFFF, 2 bytes  00 1F -> F1 20\nmemory: 2 bytes in 1 range differ\n",
    },
    Dispatch {
        start: "--sp FF10 --pc 1234",
        enabled: 0x1F,
        raised: 0x01,
        differs: "SP       FF10 -> FF0E\nPC       1234 -> 0048\nIME      On -> Off\n\
                  $FF0E-$FF0F, 2 bytes  00 01 -> 34 10\nmemory: 2 bytes in 1 range differ\n",
    },
    Dispatch {
        start: "--sp FF11 --pc 12FF",
        enabled: 0x1F,
        raised: 0x03,
        differs: "SP       FF11 -> FF0F\nPC       12FF -> 0040\nIME      On -> Off\n\
                  $FF0F-$FF10, 2 bytes  03 00 -> FF 12\nmemory: 2 bytes in 1 range differ\n",
    },
];

#[test]
fn a_dispatch_that_stores_over_its_requests() {
    for (number, dispatch) in DISPATCHES.iter().enumerate() {
        let bench = Bench::new(&format!("dispatch-{number}"));
        let requests: [(usize, &[u8]); 2] =
            [(0xFFFF, &[dispatch.enabled]), (0xFF0F, &[dispatch.raised])];
        bench.put("dump", &memory(&requests));
        let line = format!("make before --dump dump --ime on {}", dispatch.start);
        bench.tool(&line).done();
        let ran = bench.tool("run before 1 after").done();
        assert_eq!(ran, "ran 5 cycles in 1 step, wrote after\n");
        assert_eq!(bench.tool("compare before after").no(), dispatch.differs);
    }
}
