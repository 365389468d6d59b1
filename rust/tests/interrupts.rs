//! The corners of interrupts (document 02, M-100): a HALT that its handler returns to, and a dispatch
//! that stores over IE or IF.

mod common;

use common::{image_of, memory, sample};
use trnadulek::Ime::{Arming, Off, On};
use trnadulek::Mode::{Halted, Repeat, Running};
use trnadulek::{open_mut, run, run_image, step, Cpu, Ime, Mode, Ran, Stepped};

const IE: usize = 0xFFFF;
const IF: usize = 0xFF0F;
const SCORE: usize = 0xC000;
const EI_AND_HALT: [u8; 2] = [0xFB, 0x76];
const HALT: [u8; 1] = [0x76];
const RETI: [u8; 1] = [0xD9];
/// INC [HL]; RETI: it counts at `SCORE`, where 0 and 1 become 1 and 2 without a flag changing.
const COUNT: [u8; 2] = [0x34, 0xD9];

/// A state by what these steps change of it. HL leads to `SCORE`; of the flags, C is set.
fn at(sp: u16, pc: u16, ime: Ime, mode: Mode) -> Cpu {
    let mut cpu = Cpu {
        f: 0x10,
        sp,
        pc,
        ime,
        mode,
        ..sample()
    };
    cpu.set_hl(0xC000);
    cpu
}

/// What a step leaves: the state after it, its cycles, and the bytes that it stored. All others
/// stay.
struct Left {
    cpu: Cpu,
    cycles: u8,
    stores: &'static [(usize, u8)],
}

fn left(cpu: Cpu, cycles: u8, stores: &'static [(usize, u8)]) -> Left {
    Left {
        cpu,
        cycles,
        stores,
    }
}

/// The steps one by one, of a state and a memory and of an image. Answers the memory after them.
#[track_caller]
fn by_steps(start: Cpu, memory: &[u8], lefts: &[Left]) -> Vec<u8> {
    let (mut cpu, mut lent, mut wanted) = (start, memory.to_vec(), memory.to_vec());
    let mut image = image_of(start, memory);
    for (number, left) in lefts.iter().enumerate() {
        let stepped = Stepped {
            cpu: left.cpu,
            cycles: left.cycles,
        };
        assert_eq!(step(cpu, &mut lent), Ok(stepped), "step {number}");
        assert_eq!(open_mut(&mut image).unwrap().step(), Ok(stepped));
        for &(address, byte) in left.stores {
            wanted[address] = byte;
        }
        assert!(lent == wanted, "step {number}: the memories differ");
        assert!(image == image_of(left.cpu, &wanted));
        cpu = left.cpu;
    }
    wanted
}

/// One run of as many cycles ends where the steps do, of a state and a memory and of an image.
#[track_caller]
fn follow(start: Cpu, mut memory: Vec<u8>, lefts: &[Left]) {
    let wanted = by_steps(start, &memory, lefts);
    let spent = lefts.iter().map(|left| u32::from(left.cycles)).sum();
    let ran = Ran {
        cpu: lefts.last().expect("a step").cpu,
        spent,
        steps: lefts.len() as u32,
    };
    let mut image = image_of(start, &memory);
    assert_eq!(run(start, &mut memory, spent), Ok(ran));
    assert!(memory == wanted, "the memories differ");
    assert_eq!(run_image(&mut image, spent), Ok(ran));
    assert!(image == image_of(ran.cpu, &wanted));
}

/// The request is there before the HALT: it is served, and only then the HALT halts. The upper bits
/// of IF request nothing, and stay.
#[test]
fn the_handler_returns_to_the_halt() {
    let memory = memory(&[
        (0x0050, &COUNT),
        (0x0150, &EI_AND_HALT),
        (IE, &[0x04]),
        (IF, &[0xE4]),
    ]);
    let pushed = &[(0xDFFD, 0x01), (IF, 0xE0), (0xDFFC, 0x51)];
    let lefts = [
        left(at(0xDFFE, 0x0151, Arming, Running), 1, &[]),
        left(at(0xDFFE, 0x0151, On, Running), 1, &[]),
        left(at(0xDFFC, 0x0050, Off, Running), 5, pushed),
        left(at(0xDFFC, 0x0051, Off, Running), 3, &[(SCORE, 1)]),
        left(at(0xDFFE, 0x0151, On, Running), 4, &[]),
        left(at(0xDFFE, 0x0152, On, Halted), 1, &[]),
        left(at(0xDFFE, 0x0152, On, Halted), 1, &[]),
    ];
    follow(at(0xDFFE, 0x0150, Off, Running), memory, &lefts);
}

/// A host that raises the next request while the game waits: then the address after the HALT is
/// pushed, and the game goes on from there, by INC A and JR, to its EI and its HALT.
#[test]
fn the_next_request_comes_while_it_waits() {
    let game = [0xFB, 0x76, 0x3C, 0x18, 0xFB];
    let memory = memory(&[
        (0x0040, &COUNT),
        (0x0150, &game),
        (IE, &[0x01]),
        (IF, &[0x01]),
    ]);
    let start = at(0xDFFE, 0x0150, Off, Running);
    let waiting = at(0xDFFE, 0x0152, On, Halted);
    let mut bytes = image_of(start, &memory);
    let mut image = open_mut(&mut bytes).unwrap();

    // EI 1, HALT 1, dispatch 5, INC [HL] 3, RETI 4, HALT 1.
    let ran = image.run(15).unwrap();
    assert_eq!((ran.cpu, ran.spent, ran.steps), (waiting, 15, 6));
    assert_eq!((image.byte(0xDFFD), image.byte(0xDFFC)), (0x01, 0x51));
    assert_eq!((image.byte(0xC000), image.byte(0xFF0F)), (1, 0));

    // Dispatch 5, INC [HL] 3, RETI 4, INC A 1, JR 3, EI 1, HALT 1.
    image.set_byte(0xFF0F, 0x01);
    let ran = image.run(18).unwrap();
    let waiting = Cpu {
        a: waiting.a + 1,
        ..waiting
    };
    assert_eq!((ran.cpu, ran.spent, ran.steps), (waiting, 18, 7));
    assert_eq!((image.byte(0xDFFD), image.byte(0xDFFC)), (0x01, 0x52));
    assert_eq!((image.byte(0xC000), image.byte(0xFF0F)), (2, 0));
}

/// Bits 1 and 3; bit 4 is raised and not enabled. Each of the two handlers returns to the HALT.
#[test]
fn two_requests() {
    let memory = memory(&[
        (0x0048, &RETI),
        (0x0058, &RETI),
        (0x0150, &EI_AND_HALT),
        (IE, &[0x0A]),
        (IF, &[0x1A]),
    ]);
    let lower = &[(0xDFFD, 0x01), (IF, 0x18), (0xDFFC, 0x51)];
    let upper = &[(0xDFFD, 0x01), (IF, 0x10), (0xDFFC, 0x51)];
    let lefts = [
        left(at(0xDFFE, 0x0151, Arming, Running), 1, &[]),
        left(at(0xDFFE, 0x0151, On, Running), 1, &[]),
        left(at(0xDFFC, 0x0048, Off, Running), 5, lower),
        left(at(0xDFFE, 0x0151, On, Running), 4, &[]),
        left(at(0xDFFC, 0x0058, Off, Running), 5, upper),
        left(at(0xDFFE, 0x0151, On, Running), 4, &[]),
        left(at(0xDFFE, 0x0152, On, Halted), 1, &[]),
    ];
    follow(at(0xDFFE, 0x0150, Off, Running), memory, &lefts);
}

/// In Repeat the HALT's byte is at PC as given. The RETI comes to it in Running, so that then PC
/// moves past it.
#[test]
fn a_halt_that_is_read_in_repeat() {
    let memory = memory(&[
        (0x0060, &RETI),
        (0x0151, &HALT),
        (IE, &[0x10]),
        (IF, &[0x10]),
    ]);
    let pushed = &[(0xDFFD, 0x01), (IF, 0x00), (0xDFFC, 0x51)];
    let lefts = [
        left(at(0xDFFE, 0x0151, On, Running), 1, &[]),
        left(at(0xDFFC, 0x0060, Off, Running), 5, pushed),
        left(at(0xDFFE, 0x0151, On, Running), 4, &[]),
        left(at(0xDFFE, 0x0152, On, Halted), 1, &[]),
    ];
    follow(at(0xDFFE, 0x0151, Arming, Repeat), memory, &lefts);
}

/// The HALT's byte at $FFFF is IE as well, $76, and the address after it is $0000, which is not
/// pushed.
#[test]
fn a_halt_at_the_end_of_the_memory() {
    let memory = memory(&[(0x0048, &RETI), (0xFFFE, &EI_AND_HALT), (IF, &[0x02])]);
    let pushed = &[(0xDFFD, 0xFF), (IF, 0x00), (0xDFFC, 0xFF)];
    let lefts = [
        left(at(0xDFFE, 0xFFFF, Arming, Running), 1, &[]),
        left(at(0xDFFE, 0xFFFF, On, Running), 1, &[]),
        left(at(0xDFFC, 0x0048, Off, Running), 5, pushed),
        left(at(0xDFFE, 0xFFFF, On, Running), 4, &[]),
        left(at(0xDFFE, 0x0000, On, Halted), 1, &[]),
    ];
    follow(at(0xDFFE, 0xFFFE, Off, Running), memory, &lefts);
}

/// The HALT's own address is what takes its request away; the HALT at $0000 then waits with IME Off.
#[test]
fn a_halt_whose_address_cancels_its_dispatch() {
    let memory = memory(&[
        (0x0000, &HALT),
        (0x2000, &EI_AND_HALT),
        (IE, &[0x01]),
        (IF, &[0x01]),
    ]);
    let pushed = &[(IE, 0x20), (0xFFFE, 0x01)];
    let lefts = [
        left(at(0x0000, 0x2001, Arming, Running), 1, &[]),
        left(at(0x0000, 0x2001, On, Running), 1, &[]),
        left(at(0xFFFE, 0x0000, Off, Running), 5, pushed),
        left(at(0xFFFE, 0x0001, Off, Halted), 1, &[]),
    ];
    follow(at(0x0000, 0x2000, Off, Running), memory, &lefts);
}

/// HALT at $0151: IME and mode before it, IE and IF, and PC, IME and mode after it.
#[track_caller]
fn halted(before: (Ime, Mode), (enabled, raised): (u8, u8), after: (u16, Ime, Mode)) {
    let memory = memory(&[(0x0151, &HALT), (IE, &[enabled]), (IF, &[raised])]);
    let left = left(at(0xDFFE, after.0, after.1, after.2), 1, &[]);
    follow(at(0xDFFE, 0x0151, before.0, before.1), memory, &[left]);
}

#[test]
fn a_halt_with_a_request() {
    let request = (0x04, 0x04);
    halted((Arming, Running), request, (0x0151, On, Running));
    halted((Arming, Repeat), request, (0x0151, On, Running));
    halted((Arming, Halted), request, (0x0151, On, Running));
    halted((Off, Running), request, (0x0152, Off, Repeat));
    halted((Off, Repeat), request, (0x0151, Off, Repeat));
}

/// $1B and $E4 have no bit in common, $E0 and $E0 none that counts.
#[test]
fn a_halt_without_a_request() {
    for none in [(0x1B, 0xE4), (0xE0, 0xE0), (0x00, 0xFF), (0xFF, 0x00)] {
        halted((Arming, Running), none, (0x0152, On, Halted));
        halted((Arming, Repeat), none, (0x0151, On, Halted));
        halted((Off, Running), none, (0x0152, Off, Halted));
        halted((On, Running), none, (0x0152, On, Halted));
    }
}

/// A dispatch, the same from each mode: SP and PC before it, IE and IF, SP and PC after it, and the
/// bytes that it stored.
#[track_caller]
fn dispatched(
    before: (u16, u16),
    (enabled, raised): (u8, u8),
    after: (u16, u16),
    stores: &'static [(usize, u8)],
) {
    for mode in [Running, Repeat, Halted] {
        let memory = memory(&[(IE, &[enabled]), (IF, &[raised])]);
        let left = left(at(after.0, after.1, Off, Running), 5, stores);
        follow(at(before.0, before.1, On, mode), memory, &[left]);
    }
}

#[test]
fn a_high_byte_that_takes_every_request_away() {
    let all = (0x1F, 0x1F);
    // In IE: $20 enables nothing, and $1E all but the one that is raised.
    let stores = &[(IE, 0x20), (0xFFFE, 0xF1)];
    dispatched((0x0000, 0x20F1), all, (0xFFFE, 0x0000), stores);
    let stores = &[(IE, 0x1E), (0xFFFE, 0x34)];
    dispatched((0x0000, 0x1E34), (0x01, 0xE1), (0xFFFE, 0x0000), stores);
    // In IF, where it stays as it is.
    let stores = &[(IF, 0xE0), (0xFF0E, 0x34)];
    dispatched((0xFF10, 0xE034), all, (0xFF0E, 0x0000), stores);
}

#[test]
fn a_high_byte_that_changes_which_request_is_served() {
    // In IE: bit 3 alone, where bit 0 was the lowest.
    let stores = &[(IE, 0x08), (IF, 0x17), (0xFFFE, 0x34)];
    dispatched((0x0000, 0x0834), (0x1F, 0x1F), (0xFFFE, 0x0058), stores);
    // In IF: bits 1 and 4, of which the lower is cleared.
    let stores = &[(IF, 0x10), (0xFF0E, 0x34)];
    dispatched((0xFF10, 0x1234), (0x1F, 0x01), (0xFF0E, 0x0048), stores);
}

/// It is stored after the request was chosen and cleared, so it changes nothing of that, and stays.
#[test]
fn a_low_byte_that_comes_too_late() {
    let stores = &[(0x0000, 0x12), (IF, 0x02), (IE, 0x00)];
    dispatched((0x0001, 0x1200), (0x05, 0x06), (0xFFFF, 0x0050), stores);
    let stores = &[(0xFF10, 0x12), (IF, 0xFF)];
    dispatched((0xFF11, 0x12FF), (0x1F, 0x03), (0xFF0F, 0x0040), stores);
}
