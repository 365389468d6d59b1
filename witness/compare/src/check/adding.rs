//! The adding routine: the sum by decimal arithmetic on digits, everything else
//! by document 01, and no core asked for either.

use super::run::{by_mgba, by_second, hold_to_plain, hold_to_proved, same_run, Ran};
use super::Verdict;
use crate::answer::Answer;
use crate::bench::{Bench, Judged};
use crate::input::Input;
use crate::paper;
use second::{Ime, Mode, State};
use std::ops::Range;

/// The ten bytes of the routine.
pub const ROUTINE: [u8; 10] = [0xA7, 0x1A, 0x8E, 0x27, 0x22, 0x13, 0x05, 0x20, 0xF8, 0xC9];

/// Where everything lies.
struct Setting {
    n: usize,
    routine: Range<usize>,
    destination: Range<usize>,
    source: Range<usize>,
    stack: [usize; 2],
}

/// Judged by nobody where a premise of document 01 fails.
pub fn adding(bench: &mut Bench, input: &Input) -> Verdict {
    let setting = setting(&input.state);
    if !premises_hold(&setting, &input.state, &input.bytes) {
        return Ok(Judged::default());
    }
    let expected = expected(&setting, &input.state, &input.bytes);
    let (state, memory, budget) = (input.state, &input.bytes, expected.answer.spent);
    let second = by_second(state, memory, budget);
    same_run(
        "document 01 (expected) and the second program",
        &expected,
        &second,
    )?;
    let mgba = by_mgba(bench, state, memory, budget);
    if let Some(given) = &mgba {
        same_run("document 01 (expected) and mGBA", &expected, given)?;
    }
    let run = Input::run(state, memory.clone(), budget);
    Ok(Judged {
        second: true,
        mgba: mgba.is_some(),
        plain: hold_to_plain(&run, &expected)?,
        proved: hold_to_proved(&run, &expected)?,
        paper: true,
    })
}

fn setting(s: &State) -> Setting {
    let n = if s.b == 0 { 256 } else { usize::from(s.b) };
    let word = |high: u8, low: u8| usize::from(u16::from_be_bytes([high, low]));
    let (hl, de, pc) = (word(s.h, s.l), word(s.d, s.e), usize::from(s.pc));
    Setting {
        n,
        routine: pc..pc + ROUTINE.len(),
        destination: hl..hl + n,
        source: de..de + n,
        stack: [usize::from(s.sp), usize::from(s.sp.wrapping_add(1))],
    }
}

fn premises_hold(setting: &Setting, state: &State, memory: &[u8]) -> bool {
    let Setting {
        routine,
        destination,
        source,
        stack,
        ..
    } = setting;
    let inside = |range: &Range<usize>| range.end <= memory.len();
    memory.len() == paper::MEMORY_SIZE
        && (state.mode, state.ime) == (Mode::Running, Ime::Off)
        && !paper::dirty(state)
        && [routine, destination, source].into_iter().all(inside)
        && memory[routine.clone()] == ROUTINE
        && apart(routine, destination)
        && apart(routine, source)
        && (source == destination || apart(source, destination))
        && stack.iter().all(|at| !destination.contains(at))
        && field_digits(&memory[destination.clone()]).is_some()
        && field_digits(&memory[source.clone()]).is_some()
}

fn apart(one: &Range<usize>, other: &Range<usize>) -> bool {
    one.end <= other.start || other.end <= one.start
}

/// The decimal digits of a field, least first; nothing if a digit is above 9.
pub fn field_digits(field: &[u8]) -> Option<Vec<u8>> {
    let digits: Vec<u8> = field
        .iter()
        .flat_map(|byte| [byte % 16, byte / 16])
        .collect();
    digits.iter().all(|digit| *digit <= 9).then_some(digits)
}

/// The sum as it is done on paper, and what is carried out at the end.
fn decimal_sum(one: &[u8], other: &[u8]) -> (Vec<u8>, bool) {
    let mut carry = 0;
    let mut sum = Vec::new();
    for (x, y) in one.iter().zip(other) {
        let digit = x + y + carry;
        sum.push(digit % 10);
        carry = digit / 10;
    }
    (sum, carry == 1)
}

fn expected(setting: &Setting, state: &State, before: &[u8]) -> Ran {
    let Setting {
        n,
        destination,
        source,
        stack,
        ..
    } = setting;
    let digits = |range: &Range<usize>| field_digits(&before[range.clone()]).expect("premise");
    let (sum, overflow) = decimal_sum(&digits(destination), &digits(source));
    let packed: Vec<u8> = sum.chunks(2).map(|pair| pair[0] + 16 * pair[1]).collect();
    let mut memory = before.to_vec();
    memory[destination.clone()].copy_from_slice(&packed);
    let top = packed[n - 1];
    let back = u16::from_le_bytes([before[stack[0]], before[stack[1]]]);
    Ran {
        answer: Answer {
            code: paper::DONE,
            spent: 13 * *n as u32 + 4,
            steps: 7 * *n as u32 + 2,
            state: returned(state, *n as u16, top, overflow, back),
        },
        memory,
    }
}

fn returned(s: &State, n: u16, top: u8, overflow: bool, back: u16) -> State {
    let [h, l] = u16::from_be_bytes([s.h, s.l]).wrapping_add(n).to_be_bytes();
    let [d, e] = u16::from_be_bytes([s.d, s.e]).wrapping_add(n).to_be_bytes();
    State {
        a: top,
        f: if overflow { 0xD0 } else { 0xC0 },
        b: 0,
        d,
        e,
        h,
        l,
        sp: s.sp.wrapping_add(2),
        pc: back,
        ..*s
    }
}

#[cfg(test)]
mod tests {
    use super::*;

    #[test]
    fn sums_as_on_paper() {
        // 1999 + 0001 = 2000, and 99 + 01 carries out.
        assert_eq!(
            decimal_sum(&[9, 9, 9, 1], &[1, 0, 0, 0]),
            (vec![0, 0, 0, 2], false)
        );
        assert_eq!(decimal_sum(&[9, 9], &[1, 0]), (vec![0, 0], true));
    }

    #[test]
    fn digits_above_nine_are_none() {
        assert_eq!(field_digits(&[0x10, 0x99]), Some(vec![0, 1, 9, 9]));
        assert_eq!(field_digits(&[0x0A]), None);
        assert_eq!(field_digits(&[0xA0]), None);
    }

    #[test]
    fn outside_the_premises_nobody_judges() {
        let mut bench = Bench::new();
        let mut input = Input::step(State::default(), vec![0; paper::MEMORY_SIZE]);
        input.kind = crate::input::Kind::Adding;
        assert_eq!(adding(&mut bench, &input), Ok(Judged::default()));
    }
}
