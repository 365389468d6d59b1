//! The worked example of document 01, the counts of a run, and what ends one.

mod common;

use common::{memory, sample};
use trnadulek::{run, step, Cpu, Ended, Mode, Ran, Refusal};
use trnadulek::{LARGEST_BUDGET, LARGEST_EXCESS, MEMORY_SIZE};

const ROUTINE: [u8; 10] = [0xA7, 0x1A, 0x8E, 0x27, 0x22, 0x13, 0x05, 0x20, 0xF8, 0xC9];

/// 199 and 1, about to be added.
fn adding() -> (Cpu, Vec<u8>) {
    let memory = memory(&[
        (0x0150, &ROUTINE),
        (0xC000, &[0x99, 0x01]),
        (0xC100, &[0x01, 0x00]),
        (0xDFFE, &[0x34, 0x12]),
    ]);
    let cpu = Cpu {
        pc: 0x0150,
        h: 0xC0,
        d: 0xC1,
        sp: 0xDFFE,
        b: 2,
        ..Cpu::default()
    };
    (cpu, memory)
}

/// 200, and the state that the worked example ends in.
fn added() -> (Cpu, Vec<u8>) {
    let (cpu, mut memory) = adding();
    memory[0xC000..0xC002].copy_from_slice(&[0x00, 0x02]);
    let end = Cpu {
        a: 0x02,
        f: 0xC0,
        b: 0,
        e: 0x02,
        l: 0x02,
        sp: 0xE000,
        pc: 0x1234,
        ..cpu
    };
    (end, memory)
}

/// A run that was refused before its first step.
fn not_begun(refusal: Refusal, cpu: Cpu) -> Result<Ran, Ended> {
    Err(Ended {
        refusal,
        ran: Ran {
            cpu,
            spent: 0,
            steps: 0,
        },
    })
}

#[test]
fn the_worked_example() {
    let (cpu, mut memory) = adding();
    let (end, expected) = added();
    assert_eq!(
        run(cpu, &mut memory, 30),
        Ok(Ran {
            cpu: end,
            spent: 30,
            steps: 16
        })
    );
    assert_eq!(memory, expected);
}

#[test]
fn steps_come_to_the_same_as_a_run() {
    let (mut cpu, mut memory) = adding();
    let mut spent = 0;
    for _ in 0..16 {
        let stepped = step(cpu, &mut memory).unwrap();
        cpu = stepped.cpu;
        spent += u32::from(stepped.cycles);
    }
    assert_eq!(((cpu, memory), spent), (added(), 30));
}

#[test]
fn slices_of_a_budget_come_to_the_same_as_the_whole() {
    let (mut cpu, mut memory) = adding();
    let (mut spent, mut steps) = (0, 0);
    while spent < 30 {
        let ran = run(cpu, &mut memory, 7.min(30 - spent)).unwrap();
        cpu = ran.cpu;
        spent += ran.spent;
        steps += ran.steps;
    }
    assert_eq!(((cpu, memory), spent, steps), (added(), 30, 16));
}

#[test]
fn a_budget_of_0_takes_no_step() {
    for mode in [Mode::Running, Mode::Stopped] {
        let cpu = Cpu { mode, ..sample() };
        let mut memory = memory(&[]);
        assert_eq!(
            run(cpu, &mut memory, 0),
            Ok(Ran {
                cpu,
                spent: 0,
                steps: 0
            })
        );
    }
}

#[test]
fn the_largest_budget_and_one_more() {
    let mut memory = memory(&[]);
    let nops = Ran {
        cpu: Cpu::default(),
        spent: LARGEST_BUDGET,
        steps: LARGEST_BUDGET,
    };
    assert_eq!(run(Cpu::default(), &mut memory, LARGEST_BUDGET), Ok(nops));
    let more = run(sample(), &mut memory, LARGEST_BUDGET + 1);
    assert_eq!(more, not_begun(Refusal::Budget, sample()));
}

#[test]
fn the_largest_excess() {
    let mut memory = memory(&[(0, &[0xCD, 0x00, 0x10])]);
    let ran = run(Cpu::default(), &mut memory, 1).unwrap();
    assert_eq!((ran.spent, ran.steps), (1 + LARGEST_EXCESS, 1));
}

#[test]
fn an_undefined_opcode_ends_a_run_and_keeps_the_steps_before_it() {
    let mut memory = memory(&[(0, &[0x3E, 0x07, 0x3C, 0xD3])]);
    let ended = run(Cpu::default(), &mut memory, 100).unwrap_err();
    let ran = Ran {
        cpu: Cpu {
            a: 8,
            pc: 3,
            ..Cpu::default()
        },
        spent: 3,
        steps: 2,
    };
    assert_eq!(
        ended,
        Ended {
            refusal: Refusal::UndefinedOpcode,
            ran
        }
    );
    let again = run(ran.cpu, &mut memory, 100);
    assert_eq!(again, not_begun(Refusal::UndefinedOpcode, ran.cpu));
}

#[test]
fn stop_ends_a_run_and_keeps_the_steps_before_it() {
    let mut memory = memory(&[(0, &[0x36, 0x07, 0x10, 0xD3])]);
    let cpu = Cpu {
        h: 0xC0,
        ..Cpu::default()
    };
    let ended = run(cpu, &mut memory, 100).unwrap_err();
    let ran = Ran {
        cpu: Cpu {
            pc: 4,
            mode: Mode::Stopped,
            ..cpu
        },
        spent: 4,
        steps: 2,
    };
    assert_eq!(
        ended,
        Ended {
            refusal: Refusal::Stopped,
            ran
        }
    );
    assert_eq!(memory[0xC000], 7);
}

#[test]
fn a_run_is_refused_for_memory_then_flags_then_budget() {
    let bad_flags = Cpu {
        f: 0x0F,
        ..sample()
    };
    let mut lent = vec![0; MEMORY_SIZE + 1];
    for length in [0, 23, MEMORY_SIZE - 1, MEMORY_SIZE + 1] {
        let ran = run(bad_flags, &mut lent[..length], u32::MAX);
        assert_eq!(ran, not_begun(Refusal::MemoryLength, bad_flags));
    }
    let ran = run(bad_flags, &mut lent[..MEMORY_SIZE], u32::MAX);
    assert_eq!(ran, not_begun(Refusal::FlagBits, bad_flags));
    let ran = run(sample(), &mut lent[..MEMORY_SIZE], u32::MAX);
    assert_eq!(ran, not_begun(Refusal::Budget, sample()));
    assert!(lent.iter().all(|byte| *byte == 0));
}

#[test]
fn a_step_is_refused_for_memory_then_flags_then_stop_then_opcode() {
    let stopped = Cpu {
        f: 0x01,
        mode: Mode::Stopped,
        ..Cpu::default()
    };
    let mut lent = memory(&[(0, &[0xFD])]);
    assert_eq!(step(stopped, &mut lent[1..]), Err(Refusal::MemoryLength));
    assert_eq!(step(stopped, &mut lent), Err(Refusal::FlagBits));
    assert_eq!(
        step(Cpu { f: 0xF0, ..stopped }, &mut lent),
        Err(Refusal::Stopped)
    );
    assert_eq!(
        step(Cpu::default(), &mut lent),
        Err(Refusal::UndefinedOpcode)
    );
    assert_eq!(lent, memory(&[(0, &[0xFD])]));
}

#[test]
fn an_ended_run_says_why_and_how_far_it_came() {
    let mut memory = memory(&[(2, &[0xD3])]);
    let ended = run(Cpu::default(), &mut memory, 100).unwrap_err();
    let words = "the step would run an undefined opcode, after 2 steps and 2 cycles";
    assert_eq!(ended.to_string(), words);
    let source = std::error::Error::source(&ended).expect("the refusal");
    assert_eq!(source.to_string(), "the step would run an undefined opcode");
}
