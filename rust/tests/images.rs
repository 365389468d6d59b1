//! An image that is run where it lies: its state and its memory stay together.

mod common;

use common::{image_of, memory, sample, sample_image, sample_memory};
use trnadulek::{open, open_mut, run, run_image, step, Cpu, Ended, Mode, Ran, Refusal};
use trnadulek::{HEAD_SIZE, LARGEST_BUDGET};

const FRAME: u32 = 17_556;

/// LD HL,$C000; INC [HL]; INC [HL]; STOP: a game that scores 2 and stops.
fn game() -> Vec<u8> {
    image_of(
        Cpu::default(),
        &memory(&[(0, &[0x21, 0x00, 0xC0, 0x34, 0x34, 0x10, 0x00])]),
    )
}

/// The score is 2, PC is at the STOP's end and the mode is Stopped, all of it in the image.
fn assert_stopped(image: &[u8]) {
    let (cpu, memory) = open(image).unwrap();
    assert_eq!((memory[0xC000], cpu.pc, cpu.mode), (2, 7, Mode::Stopped));
}

fn stopped_after(spent: u32, steps: u32) -> Result<Ran, Ended> {
    let cpu = Cpu {
        h: 0xC0,
        pc: 7,
        mode: Mode::Stopped,
        ..Cpu::default()
    };
    Err(Ended {
        refusal: Refusal::Stopped,
        ran: Ran { cpu, spent, steps },
    })
}

#[test]
fn a_stopped_game_does_not_score_again() {
    let mut image = game();
    assert_eq!(run_image(&mut image, FRAME), stopped_after(10, 4));
    assert_stopped(&image);
    for _ in 0..2 {
        let as_it_was = image.clone();
        assert_eq!(run_image(&mut image, FRAME), stopped_after(0, 0));
        assert!(image == as_it_was);
        assert_stopped(&image);
    }
}

#[test]
fn nor_through_the_guard_run_or_stepped() {
    let mut ran = game();
    let mut stepped = game();
    for _ in 0..3 {
        assert!(open_mut(&mut ran).unwrap().run(FRAME).is_err());
        assert_stopped(&ran);
        let mut image = open_mut(&mut stepped).unwrap();
        while image.step().is_ok() {}
        assert_stopped(&stepped);
    }
    assert!(ran == stepped);
}

#[test]
fn an_undefined_opcode_leaves_the_steps_before_it_in_the_image() {
    // LD A,7; LD [$C000],A; undefined
    let code: [u8; 6] = [0x3E, 0x07, 0xEA, 0x00, 0xC0, 0xD3];
    let mut image = image_of(Cpu::default(), &memory(&[(0, &code)]));
    let ended = run_image(&mut image, FRAME).unwrap_err();
    assert_eq!(ended.refusal, Refusal::UndefinedOpcode);
    assert_eq!((ended.ran.spent, ended.ran.steps), (6, 2));
    let cpu = Cpu {
        a: 7,
        pc: 5,
        ..Cpu::default()
    };
    let expected = image_of(cpu, &memory(&[(0, &code), (0xC000, &[7])]));
    assert_eq!(ended.ran.cpu, cpu);
    assert!(image == expected);
}

#[test]
fn an_image_is_run_as_its_state_and_memory_are() {
    // INC [HL]; JR back
    let mut lent = memory(&[(0x0200, &[0x34, 0x18, 0xFD])]);
    let cpu = Cpu {
        pc: 0x0200,
        h: 0xC0,
        ..Cpu::default()
    };
    let mut image = image_of(cpu, &lent);
    let wanted = run(cpu, &mut lent, 1_000).unwrap();
    assert_eq!(run_image(&mut image, 1_000), Ok(wanted));
    assert!(image == image_of(wanted.cpu, &lent));

    let wanted = step(wanted.cpu, &mut lent).unwrap();
    assert_eq!(open_mut(&mut image).unwrap().step(), Ok(wanted));
    assert!(image == image_of(wanted.cpu, &lent));
}

#[test]
fn a_refused_run_leaves_the_image_alone() {
    let mut image = sample_image();
    let ended = run_image(&mut image, LARGEST_BUDGET + 1).unwrap_err();
    let ran = Ran {
        cpu: sample(),
        spent: 0,
        steps: 0,
    };
    let refusal = Refusal::Budget;
    assert_eq!(ended, Ended { refusal, ran });
    assert!(image == sample_image());
    assert_eq!(
        run_image(&mut image, 0).map(|ran| ran.cpu),
        Ok(sample()),
        "a budget of 0 takes no step"
    );
    assert!(image == sample_image());
}

/// One fault of each kind, with the refusals that it comes before.
#[test]
fn what_is_no_image_is_refused_and_left_alone() {
    let faults = [
        (6, 0x01, Refusal::FlagBits),
        (18, 4, Refusal::StateCode),
        (17, 3, Refusal::StateCode),
        (22, 1, Refusal::BlockLength),
        (4, 15, Refusal::BlockLength),
        (0, 2, Refusal::Version),
    ];
    let mut image = sample_image();
    for (at, byte, refusal) in faults {
        image[at] = byte;
        let as_it_was = image.clone();
        let ended = run_image(&mut image, u32::MAX).unwrap_err();
        let ran = Ran {
            cpu: Cpu::default(),
            spent: 0,
            steps: 0,
        };
        assert_eq!(ended, Ended { refusal, ran });
        assert!(image == as_it_was);
    }
    let ended = run_image(&mut image[1..], u32::MAX).unwrap_err();
    assert_eq!(ended.refusal, Refusal::Length);
}

#[test]
fn the_guard_reads_and_writes_the_image() {
    let mut bytes = sample_image();
    let part = bytes[HEAD_SIZE..].as_ptr();
    let mut image = open_mut(&mut bytes).unwrap();
    assert_eq!(image.cpu(), sample());
    assert_eq!(image.memory(), sample_memory());
    assert_eq!(image.memory().as_ptr(), part);
    for address in [0x0000, 0xC123, 0xFFFF] {
        let byte = sample_memory()[usize::from(address)];
        assert_eq!(image.byte(address), byte);
        image.set_byte(address, !byte);
        assert_eq!(image.byte(address), !byte);
    }
    let woken = Cpu {
        mode: Mode::Running,
        ..sample()
    };
    assert_eq!(image.set_cpu(woken), Ok(()));
    assert_eq!(image.cpu(), woken);
    assert!(format!("{image:?}").contains("mode: Running"));

    let mut wanted = sample_memory();
    for address in [0x0000, 0xC123, 0xFFFF] {
        wanted[address] = !wanted[address];
    }
    assert!(bytes == image_of(woken, &wanted));
}

#[test]
fn a_state_that_is_refused_is_not_written() {
    let mut bytes = sample_image();
    let mut image = open_mut(&mut bytes).unwrap();
    let bad_flags = Cpu {
        f: 0x01,
        ..sample()
    };
    assert_eq!(image.set_cpu(bad_flags), Err(Refusal::FlagBits));
    assert_eq!(image.cpu(), sample());
    assert!(bytes == sample_image());
}
