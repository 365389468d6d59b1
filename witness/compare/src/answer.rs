//! What a step or a run answers, whoever took it, and how two answers are held
//! against each other.

use crate::paper;
use crate::proved::{Block, Numbers};
use second::{Ran, State, Stepped};
use std::fmt;

/// The answer of a step (then `steps` is 1, or 0 when it was refused) or of a run.
#[derive(Clone, Copy, PartialEq, Eq, Debug)]
pub struct Answer {
    pub code: u8,
    pub spent: u32,
    pub steps: u32,
    pub state: State,
}

impl Answer {
    /// Nothing done: the state as it was given.
    pub fn refused(code: u8, state: State) -> Self {
        Answer {
            code,
            spent: 0,
            steps: 0,
            state,
        }
    }

    pub fn numbers(&self) -> Numbers {
        (self.code, self.spent, self.steps)
    }

    /// The answer of one step.
    pub fn of_step(code: u8, cycles: u32, state: State) -> Self {
        Answer {
            code,
            spent: cycles,
            steps: u32::from(code == 0),
            state,
        }
    }
}

impl From<Stepped> for Answer {
    fn from(stepped: Stepped) -> Self {
        Answer::of_step(stepped.code, stepped.cycles.into(), stepped.state)
    }
}

impl From<Ran> for Answer {
    fn from(ran: Ran) -> Self {
        Answer {
            code: ran.code,
            spent: ran.spent,
            steps: ran.steps,
            state: ran.state,
        }
    }
}

impl fmt::Display for Answer {
    fn fmt(&self, out: &mut fmt::Formatter) -> fmt::Result {
        let Answer {
            code,
            spent,
            steps,
            state,
        } = self;
        write!(
            out,
            "code {code}, cycles {spent}, steps {steps}, {}",
            registers(state)
        )
    }
}

/// A state as `AF=0000 BC=0000 DE=0000 HL=0000 SP=0000 PC=0000 ime=0 mode=0`.
pub fn registers(s: &State) -> String {
    format!(
        "AF={:02X}{:02X} BC={:02X}{:02X} DE={:02X}{:02X} HL={:02X}{:02X} SP={:04X} PC={:04X} ime={} mode={}",
        s.a, s.f, s.b, s.c, s.d, s.e, s.h, s.l, s.sp, s.pc, s.ime.code(), s.mode.code()
    )
}

/// Bytes in hexadecimal, without spaces.
pub fn hex(bytes: &[u8]) -> String {
    bytes.iter().map(|byte| format!("{byte:02X}")).collect()
}

/// Nothing, or a sentence that says how the given answer parts from the expected.
pub fn same_answer(who: &str, expected: &Answer, given: &Answer) -> Result<(), String> {
    if expected == given {
        return Ok(());
    }
    Err(format!(
        "{who}\n    expected {expected}\n    given    {given}"
    ))
}

/// The same for an answer given as code, cycles and steps beside a state block.
pub fn same_block(
    who: &str,
    expected: &Answer,
    numbers: Numbers,
    block: &Block,
) -> Result<(), String> {
    let wanted = paper::block(&expected.state);
    if numbers == expected.numbers() && *block == wanted {
        return Ok(());
    }
    let (code, spent, steps) = numbers;
    Err(format!(
        "{who}\n    expected {expected}, block {}\n    given    code {code}, cycles {spent}, \
         steps {steps}, block {}",
        hex(&wanted),
        hex(block)
    ))
}

/// Nothing, or a sentence that names the first byte that differs.
pub fn same_bytes(who: &str, expected: &[u8], given: &[u8]) -> Result<(), String> {
    if expected == given {
        return Ok(());
    }
    if expected.len() != given.len() {
        let (e, g) = (expected.len(), given.len());
        return Err(format!("{who}: {e} bytes expected, {g} given"));
    }
    let differing: Vec<usize> = (0..given.len())
        .filter(|n| expected[*n] != given[*n])
        .collect();
    let (count, first) = (differing.len(), differing[0]);
    Err(format!(
        "{who}: {count} byte(s) differ, the first at {first:04X}: {:02X} expected, {:02X} given",
        expected[first], given[first]
    ))
}

/// Nothing, or a sentence with both values.
pub fn same<T: PartialEq + fmt::Debug>(who: &str, expected: T, given: T) -> Result<(), String> {
    if expected == given {
        return Ok(());
    }
    Err(format!("{who}: {expected:?} expected, {given:?} given"))
}
