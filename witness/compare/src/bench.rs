//! The bench: the same memory once for each judge, and one step taken by all.
//!
//! A step is judged on the whole of memory without copying any: bytes are poked
//! into every memory alike, whole memories are compared, and what a step changed
//! is put back from a trail.

use crate::answer::{same, same_answer, same_block, same_bytes, Answer};
use crate::excuse::{self, Seen};
use crate::paper::{self, MEMORY_SIZE};
use crate::{plain, proved};
use second::State;
use std::borrow::Cow;

const CHUNK: usize = 1024;

/// Who had a say on an input.
#[derive(Clone, Copy, PartialEq, Eq, Debug, Default)]
pub struct Judged {
    pub second: bool,
    pub mgba: bool,
    pub plain: bool,
    pub proved: bool,
    /// The harness itself, where document 01 fixes the answer outright.
    pub paper: bool,
}

/// A step on which every judge agreed.
pub struct Step {
    pub answer: Answer,
    pub judged: Judged,
}

pub struct Bench {
    /// The memory before the step, which no judge is lent.
    base: Vec<u8>,
    second: Vec<u8>,
    mgba: Vec<u8>,
    plain: Vec<u8>,
    proved: Vec<u8>,
    core: mgba::Core,
    /// Old bytes, oldest first, that lead back to the background.
    trail: Vec<(u16, u8)>,
    pub excuses: excuse::Uses,
}

impl Bench {
    pub fn new() -> Self {
        Bench {
            base: vec![0; MEMORY_SIZE],
            second: vec![0; MEMORY_SIZE],
            mgba: vec![0; MEMORY_SIZE],
            plain: vec![0; MEMORY_SIZE],
            proved: vec![0; MEMORY_SIZE],
            core: mgba::Core::new(),
            trail: Vec::new(),
            excuses: excuse::Uses::default(),
        }
    }

    /// Lays a whole memory as the new background.
    pub fn lay(&mut self, memory: &[u8]) {
        self.base.copy_from_slice(memory);
        self.trail.clear();
        self.recover();
    }

    /// Brings the judges' memories back to the one before the step.
    pub fn recover(&mut self) {
        self.second.copy_from_slice(&self.base);
        self.mgba.copy_from_slice(&self.base);
        self.plain.copy_from_slice(&self.base);
        self.proved.copy_from_slice(&self.base);
    }

    /// The memory before the next step.
    pub fn memory(&self) -> &[u8] {
        &self.base
    }

    pub fn peek(&self, address: u16) -> u8 {
        self.base[usize::from(address)]
    }

    /// Writes a byte into every memory, until the next [`Bench::rewind`].
    pub fn poke(&mut self, address: u16, byte: u8) {
        self.trail.push((address, self.peek(address)));
        self.write(address, byte);
    }

    fn write(&mut self, address: u16, byte: u8) {
        let at = usize::from(address);
        self.base[at] = byte;
        self.second[at] = byte;
        self.mgba[at] = byte;
        self.plain[at] = byte;
        self.proved[at] = byte;
    }

    /// Takes back every poke and every change of a step, back to the background.
    pub fn rewind(&mut self) {
        while let Some((address, byte)) = self.trail.pop() {
            self.write(address, byte);
        }
    }

    /// One step by every judge. On a difference the memory before the step still
    /// stands in [`Bench::memory`], and [`Bench::recover`] is due.
    pub fn step(&mut self, before: State) -> Result<Step, String> {
        let answer = Answer::from(second::step(before, &mut self.second));
        let judged = Judged {
            second: true,
            paper: self.hold_to_paper(&before, &answer)?,
            mgba: self.hold_to_mgba(&before, &answer)?,
            plain: self.hold_to_plain(&before, &answer)?,
            proved: self.hold_to_proved(&before, &answer)?,
        };
        self.settle();
        Ok(Step { answer, judged })
    }

    /// A whole verdict on refusals, dispatch, idling and HALT; of another instruction
    /// only that it is accepted and has a cost.
    fn hold_to_paper(&self, before: &State, answer: &Answer) -> Result<bool, String> {
        let code = paper::step_code(before, &self.base);
        let mut memory = Cow::Borrowed(&self.base);
        let expected = if code != paper::DONE {
            Answer::refused(code, *before)
        } else if paper::dispatches(before, &self.base) {
            paper::dispatch(before, memory.to_mut())
        } else if paper::idles(before, &self.base) {
            Answer::of_step(code, 1, *before)
        } else if paper::opcode(before, &self.base) == Some(paper::HALT) {
            paper::halt(before, &self.base)
        } else {
            same("the second program's code", code, answer.code)?;
            same("a cost from 1 to 6", true, (1..=6).contains(&answer.spent))?;
            return Ok(false);
        };
        same_answer(
            "document 01 (expected) and the second program",
            &expected,
            answer,
        )?;
        same_bytes("the second program's memory", &memory, &self.second)?;
        Ok(true)
    }

    fn hold_to_mgba(&mut self, before: &State, answer: &Answer) -> Result<bool, String> {
        if !mgba::judges(before, &self.base) {
            return Ok(false);
        }
        let outcome = self.core.step(before, &mut self.mgba);
        if outcome.illegal {
            same(
                "a step at what mGBA calls illegal",
                paper::UNDEFINED,
                answer.code,
            )?;
        } else {
            same(
                "bytes that mGBA fetched",
                self.length(before),
                outcome.fetched,
            )?;
            self.hold_to_outcome(before, answer, &outcome)?;
        }
        same_bytes("mGBA's memory", &self.second, &self.mgba)?;
        Ok(true)
    }

    /// The table's length of the instruction that is due, 0 for a dispatch. After
    /// the prefix every byte makes an instruction of two.
    fn length(&self, before: &State) -> u32 {
        match paper::opcode(before, &self.base) {
            None => 0,
            Some(paper::PREFIX) => 2,
            Some(byte) => second::length(byte.into()).into(),
        }
    }

    fn hold_to_outcome(
        &mut self,
        before: &State,
        answer: &Answer,
        outcome: &mgba::Outcome,
    ) -> Result<(), String> {
        let said = Seen {
            state: answer.state,
            cycles: answer.spent,
        };
        let excuse = excuse::due(before, &self.base);
        let wanted = match excuse {
            None => said,
            Some(n) => excuse::turned(n, before, said).ok_or_else(|| broken_rule(n, answer))?,
        };
        let expected = Answer::of_step(answer.code, wanted.cycles, wanted.state);
        let given = Answer::of_step(paper::DONE, outcome.cycles, outcome.state);
        same_answer("the second program (expected) and mGBA", &expected, &given)?;
        if let Some(n) = excuse {
            self.excuses[n] += 1;
        }
        Ok(())
    }

    /// A step of mGBA's core alone, on a memory that isn't the bench's, as document
    /// 01 would have it. The cycles and the state mean nothing at an illegal opcode.
    pub fn mgba_alone(&mut self, state: &State, memory: &mut [u8]) -> mgba::Outcome {
        let excuse = excuse::due(state, memory);
        let outcome = self.core.step(state, memory);
        let n = match excuse {
            Some(n) => n,
            None => return outcome,
        };
        self.excuses[n] += 1;
        let seen = Seen {
            state: outcome.state,
            cycles: outcome.cycles,
        };
        let Seen { state, cycles } = excuse::back(n, seen);
        mgba::Outcome {
            state,
            cycles,
            ..outcome
        }
    }

    fn hold_to_plain(&mut self, before: &State, answer: &Answer) -> Result<bool, String> {
        let given = plain::step(*before, &mut self.plain);
        same_answer("the plain core", answer, &given)?;
        same_bytes("the plain core's memory", &self.second, &self.plain)?;
        Ok(true)
    }

    fn hold_to_proved(&mut self, before: &State, answer: &Answer) -> Result<bool, String> {
        let mut block = paper::block(before);
        if let Some(numbers) = proved::step(&mut block, &mut self.proved) {
            same_block("the proved core", answer, numbers, &block)?;
            same_bytes("the proved core's memory", &self.second, &self.proved)?;
        }
        Ok(proved::PRESENT)
    }

    /// Makes the memory after the step the one before the next.
    fn settle(&mut self) {
        for start in (0..MEMORY_SIZE).step_by(CHUNK) {
            let chunk = start..start + CHUNK;
            if self.base[chunk.clone()] == self.second[chunk.clone()] {
                continue;
            }
            for at in chunk {
                if self.base[at] != self.second[at] {
                    self.trail.push((at as u16, self.base[at]));
                    self.base[at] = self.second[at];
                }
            }
        }
    }
}

fn broken_rule(excuse: usize, answer: &Answer) -> String {
    let name = excuse::TABLE[excuse].name;
    format!("the second program breaks document 01's rule for {name}\n    given    {answer}")
}

#[cfg(test)]
mod tests {
    use super::*;

    #[test]
    fn a_step_and_a_rewind_lead_back() {
        let mut bench = Bench::new();
        bench.poke(0, 0x34); // INC [HL]
        let state = State {
            h: 0xC0,
            ..State::default()
        };
        let step = bench.step(state).expect("the judges agree");
        assert!(step.judged.mgba);
        assert_eq!((step.answer.spent, bench.peek(0xC000)), (3, 1));
        bench.rewind();
        assert_eq!(bench.memory(), vec![0; MEMORY_SIZE]);
    }

    #[test]
    fn a_byte_that_differs_anywhere_is_seen() {
        let mut bench = Bench::new();
        bench.mgba[0xABCD] = 1;
        let what = bench.step(State::default()).err().expect("a difference");
        assert!(what.contains("ABCD"), "{what}");
    }

    #[test]
    fn a_different_opcode_is_seen() {
        let mut bench = Bench::new();
        bench.second[0] = 0x3C; // INC A, where the others have NOP
        let what = bench.step(State::default()).err().expect("a difference");
        assert!(what.contains("AF=0100"), "{what}");
    }

    #[test]
    fn a_refused_step_is_judged_by_paper() {
        let mut bench = Bench::new();
        let dirty = State {
            f: 1,
            ..State::default()
        };
        let step = bench.step(dirty).expect("the judges agree");
        assert_eq!(step.answer, Answer::refused(paper::FLAG_BITS, dirty));
        assert!(step.judged.paper && !step.judged.mgba);
    }
}
