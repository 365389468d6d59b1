//! From an input that fails to the smallest one that this search finds: numbers
//! lowered, parts cut, registers and bytes made zero, as long as the failure persists.

use crate::input::Input;
use crate::paper::{NEW, OLD};
use second::{Ime, Mode, State};
use std::time::{Duration, Instant};

/// More rounds than this rarely change anything.
const ROUNDS: usize = 4;

/// A long run in which every byte matters isn't searched to the end.
const PATIENCE: Duration = Duration::from_secs(15);

/// At so many places bytes are left out between others.
const PLACES: usize = 64;

type Edit = fn(&mut State);

const REGISTERS: [Edit; 12] = [
    |s| s.a = 0,
    |s| s.f = 0,
    |s| s.b = 0,
    |s| s.c = 0,
    |s| s.d = 0,
    |s| s.e = 0,
    |s| s.h = 0,
    |s| s.l = 0,
    |s| s.sp = 0,
    |s| s.pc = 0,
    |s| s.ime = Ime::Off,
    |s| s.mode = Mode::Running,
];

struct Search<'a> {
    input: Input,
    fails: &'a mut dyn FnMut(&Input) -> bool,
    deadline: Instant,
}

/// The smallest input found that still fails.
pub fn smallest(input: Input, fails: &mut dyn FnMut(&Input) -> bool) -> Input {
    let deadline = Instant::now() + PATIENCE;
    let mut search = Search {
        input,
        fails,
        deadline,
    };
    for _ in 0..ROUNDS {
        let before = search.input.clone();
        search.edition();
        search.number();
        search.length();
        search.bytes(0, search.input.bytes.len());
        search.registers();
        if search.input == before {
            break;
        }
    }
    search.input
}

impl Search<'_> {
    /// Keeps the edit if the failure persists.
    fn keep(&mut self, edit: impl FnOnce(&mut Input)) -> bool {
        if Instant::now() > self.deadline {
            return false;
        }
        let mut candidate = self.input.clone();
        edit(&mut candidate);
        let kept = candidate != self.input && (self.fails)(&candidate);
        if kept {
            self.input = candidate;
        }
        kept
    }

    /// The new edition is the plainest, then the old one, then one of the numbers that are none.
    fn edition(&mut self) {
        let given = self.input.edition;
        let plainer = [NEW, OLD, 0]
            .into_iter()
            .take_while(|edition| *edition != given);
        for edition in plainer {
            if self.keep(|input| input.edition = edition) {
                return;
            }
        }
    }

    fn number(&mut self) {
        let mut less = self.input.number;
        while less > 0 {
            while self.input.number >= less && self.keep(|input| input.number -= less) {}
            less /= 2;
        }
    }

    /// Leaves out bytes at the end, at the front or between, many at once and then fewer.
    fn length(&mut self) {
        if !self.input.kind.takes_any_length() {
            return;
        }
        let mut less = self.input.bytes.len();
        while less > 0 {
            while self.input.bytes.len() >= less && self.without(less) {}
            less /= 2;
        }
    }

    fn without(&mut self, less: usize) -> bool {
        let stay = self.input.bytes.len() - less;
        self.keep(|input| input.bytes.truncate(stay))
            || self.keep(|input| input.bytes = input.bytes.split_off(less))
            || (1..stay)
                .step_by(less.max(stay / PLACES))
                .any(|at| self.keep(|input| drop(input.bytes.drain(at..at + less))))
    }

    fn registers(&mut self) {
        for edit in REGISTERS {
            self.keep(|input| edit(&mut input.state));
        }
    }

    /// Zeroes a range at once, or else its halves.
    fn bytes(&mut self, start: usize, end: usize) {
        let clear = self.input.bytes[start..end].iter().all(|byte| *byte == 0);
        if clear || self.keep(|input| input.bytes[start..end].fill(0)) || end - start == 1 {
            return;
        }
        let middle = start + (end - start) / 2;
        self.bytes(start, middle);
        self.bytes(middle, end);
    }
}

#[cfg(test)]
mod tests {
    use super::*;

    #[test]
    fn only_what_matters_stays() {
        let state = State {
            a: 7,
            h: 8,
            pc: 9,
            ime: Ime::On,
            ..State::default()
        };
        let noisy = Input::run(state, vec![0x55; 65_536], 1000);
        let mut fails =
            |input: &Input| input.number >= 37 && input.state.h == 8 && input.bytes[0x1234] != 0;
        let small = smallest(noisy, &mut fails);
        let mut memory = vec![0; 65_536];
        memory[0x1234] = 0x55;
        let state = State {
            h: 8,
            ..State::default()
        };
        assert_eq!(small, Input::run(state, memory, 37));
    }

    #[test]
    fn a_part_is_cut_down() {
        let part = |bytes| Input::list(bytes, 0, NEW);
        let mut bytes = vec![0x55; 1000];
        bytes[700] = 0x10;
        let mut fails = |input: &Input| input.bytes.windows(2).any(|pair| pair == [0x10, 0x55]);
        assert_eq!(smallest(part(bytes), &mut fails), part(vec![0x10, 0x55]));
    }

    #[test]
    fn a_text_loses_what_stands_between() {
        let text = |text: &str| Input::assemble(text.as_bytes().to_vec(), 0);
        let mut fails = |input: &Input| {
            let bytes = &input.bytes;
            bytes.starts_with(b"DB ") && bytes.contains(&b'9') && bytes.ends_with(b"\n")
        };
        let long = format!("DB {}9{}\n", "1+".repeat(300), "+2".repeat(500));
        assert_eq!(smallest(text(&long), &mut fails), text("DB 9\n"));
    }

    #[test]
    fn an_edition_becomes_the_plainest_that_fails() {
        let made_of = |edition, fails: fn(u32) -> bool| {
            let input = Input::list(vec![0x55], 0, edition);
            smallest(input, &mut |input| fails(input.edition)).edition
        };
        assert_eq!(made_of(257, |_| true), NEW);
        assert_eq!(made_of(OLD, |_| true), NEW);
        assert_eq!(made_of(OLD, |edition| edition < NEW), OLD);
        assert_eq!(made_of(257, |edition| edition != NEW), OLD);
        assert_eq!(made_of(257, |edition| ![OLD, NEW].contains(&edition)), 0);
        assert_eq!(made_of(257, |edition| edition == 257), 257);
    }
}
