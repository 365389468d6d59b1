//! The adding routine for every n, with and without overflow, source equal to and
//! apart from the destination.

use crate::check::{field_digits, ROUTINE};
use crate::context::{Context, Failure, Outcome};
use crate::draw;
use crate::input::{Input, Kind};
use crate::paper::MEMORY_SIZE;
use random::Random;
use second::{Ime, Mode, State};

/// Digits of which a number is made: any, those that ripple, those in the middle.
const POOLS: [&[u8]; 3] = [&[0, 1, 2, 3, 4, 5, 6, 7, 8, 9], &[0, 9], &[4, 5]];

pub fn adding(context: &mut Context) -> Outcome {
    for n in 1..=256 {
        for equal in [false, true] {
            for overflow in [false, true] {
                for pool in POOLS {
                    let fields = drawn(&mut context.rng, n, equal, overflow, pool);
                    add(context, n, equal, &fields)?;
                }
                add(context, n, equal, &rippling(n, equal, overflow))?;
            }
        }
    }
    Ok(())
}

/// The bytes of destination and source.
type Fields = (Vec<u8>, Vec<u8>);

/// Numbers drawn until they overflow, or don't, as wanted.
fn drawn(rng: &mut Random, n: usize, equal: bool, overflow: bool, pool: &[u8]) -> Fields {
    loop {
        let destination = number(rng, n, pool);
        let source = match equal {
            true => destination.clone(),
            false => number(rng, n, pool),
        };
        if overflows(&destination, &source) == overflow {
            return (destination, source);
        }
    }
}

fn number(rng: &mut Random, n: usize, pool: &[u8]) -> Vec<u8> {
    (0..n)
        .map(|_| 16 * rng.pick(pool) + rng.pick(pool))
        .collect()
}

/// Whether the sum needs a digit more, from the top digits down: a 9 hands the
/// question on, and no digit is left at the end.
fn overflows(destination: &[u8], source: &[u8]) -> bool {
    let digits = |field| field_digits(field).expect("drawn from digits");
    let pairs = digits(destination).into_iter().zip(digits(source));
    let decided = pairs.rev().map(|(x, y)| x + y).find(|sum| *sum != 9);
    decided.map_or(false, |sum| sum > 9)
}

/// A carry through every digit: 99..99 + 1 and 09..99 + 1, or 99..99 and 49..99
/// doubled.
fn rippling(n: usize, equal: bool, overflow: bool) -> Fields {
    let mut destination = vec![0x99; n];
    if !overflow {
        destination[n - 1] = if equal { 0x49 } else { 0x09 };
    }
    let mut source = vec![0; n];
    source[0] = 0x01;
    match equal {
        true => (destination.clone(), destination),
        false => (destination, source),
    }
}

fn add(context: &mut Context, n: usize, equal: bool, fields: &Fields) -> Outcome {
    let rng = &mut context.rng;
    let places = places(rng, n, equal);
    let mut memory = draw::noise(rng);
    memory[places.routine..][..ROUTINE.len()].copy_from_slice(&ROUTINE);
    memory[places.source..][..n].copy_from_slice(&fields.1);
    memory[places.destination..][..n].copy_from_slice(&fields.0);
    let state = called(rng, n, &places);
    let judged = context.check(Input::new(Kind::Adding, state, 0, memory))?;
    match judged.paper && judged.mgba {
        true => Ok(()),
        false => Err(Failure::of_harness(
            "an addition was set up outside the premises",
        )),
    }
}

/// Where the parts begin.
struct Places {
    routine: usize,
    destination: usize,
    source: usize,
    stack: u16,
}

/// Random places that meet the premises, often at the end of memory or touching.
fn places(rng: &mut Random, n: usize, equal: bool) -> Places {
    loop {
        let routine = start(rng, ROUTINE.len());
        let destination = match rng.one_in(4) {
            true => routine + ROUTINE.len(),
            false => start(rng, n),
        };
        let source = match (equal, rng.one_in(4)) {
            (true, _) => destination,
            (false, true) => destination + n,
            (false, false) => start(rng, n),
        };
        let stack = stack(rng, routine, destination, source, n);
        let places = Places {
            routine,
            destination,
            source,
            stack,
        };
        if allowed(&places, n) {
            return places;
        }
    }
}

/// Any start for so many bytes, the last possible one often.
fn start(rng: &mut Random, length: usize) -> usize {
    let last = MEMORY_SIZE - length;
    match rng.one_in(8) {
        true => last,
        false => rng.below(last as u32 + 1) as usize,
    }
}

/// Anywhere, around $FFFF, in the routine, in the source, or beside the destination.
fn stack(rng: &mut Random, routine: usize, destination: usize, source: usize, n: usize) -> u16 {
    let anywhere = rng.word();
    rng.pick(&[
        anywhere,
        0xFFFF,
        0xFFFE,
        0,
        routine as u16,
        source as u16,
        (destination as u16).wrapping_sub(2),
        (destination + n) as u16,
    ])
}

fn allowed(places: &Places, n: usize) -> bool {
    let Places {
        routine,
        destination,
        source,
        stack,
    } = *places;
    let apart = |a: usize, a_length: usize, b: usize| a + a_length <= b || b + n <= a;
    let outside = |at: u16| !(destination..destination + n).contains(&usize::from(at));
    routine + ROUTINE.len() <= MEMORY_SIZE
        && destination + n <= MEMORY_SIZE
        && source + n <= MEMORY_SIZE
        && apart(routine, ROUTINE.len(), destination)
        && apart(routine, ROUTINE.len(), source)
        && (source == destination || apart(source, n, destination))
        && outside(stack)
        && outside(stack.wrapping_add(1))
}

fn called(rng: &mut Random, n: usize, places: &Places) -> State {
    let [h, l] = (places.destination as u16).to_be_bytes();
    let [d, e] = (places.source as u16).to_be_bytes();
    State {
        b: (n % 256) as u8,
        d,
        e,
        h,
        l,
        sp: places.stack,
        pc: places.routine as u16,
        ime: Ime::Off,
        mode: Mode::Running,
        ..draw::state(rng)
    }
}

#[cfg(test)]
mod tests {
    use super::*;

    #[test]
    fn overflow_is_foretold() {
        assert!(overflows(&[0x99, 0x99], &[0x01, 0x00]));
        assert!(!overflows(&[0x99, 0x99], &[0x00, 0x00]));
        assert!(overflows(&[0x01, 0x50], &[0x00, 0x50]));
        assert!(!overflows(&[0x99, 0x49], &[0x99, 0x49]));
    }
}
