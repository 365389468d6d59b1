//! What a comparison works with: random numbers, the bench, and a tally.

use crate::bench::{Bench, Judged, Step};
use crate::check::check;
use crate::input::Input;
use random::Random;
use second::State;

/// How many inputs were judged, and by whom.
#[derive(Clone, Copy, Default, PartialEq, Eq, Debug)]
pub struct Tally {
    pub inputs: u64,
    pub second: u64,
    pub mgba: u64,
    pub plain: u64,
    pub proved: u64,
    pub paper: u64,
}

impl Tally {
    pub fn count(&mut self, judged: Judged) {
        self.inputs += 1;
        self.second += u64::from(judged.second);
        self.mgba += u64::from(judged.mgba);
        self.plain += u64::from(judged.plain);
        self.proved += u64::from(judged.proved);
        self.paper += u64::from(judged.paper);
    }

    pub fn add(&mut self, other: &Tally) {
        self.inputs += other.inputs;
        self.second += other.second;
        self.mgba += other.mgba;
        self.plain += other.plain;
        self.proved += other.proved;
        self.paper += other.paper;
    }
}

/// A difference between judges, or a fault of the harness (then without an input).
pub struct Failure {
    pub what: String,
    pub input: Option<Input>,
}

impl Failure {
    /// The harness didn't set up what it meant to.
    pub fn of_harness(what: &str) -> Self {
        Failure {
            what: format!("the harness itself: {what}"),
            input: None,
        }
    }
}

pub type Outcome = Result<(), Failure>;

pub struct Context {
    pub rng: Random,
    pub bench: Bench,
    pub tally: Tally,
    /// What a comparison says beside its line.
    pub notes: Vec<String>,
}

impl Context {
    pub fn new(seed: u64, name: &str) -> Self {
        Context {
            rng: Random::new(seed, name),
            bench: Bench::new(),
            tally: Tally::default(),
            notes: Vec::new(),
        }
    }

    /// One step on the bench as it stands.
    pub fn step(&mut self, state: State) -> Result<Step, Failure> {
        match self.bench.step(state) {
            Ok(step) => {
                self.tally.count(step.judged);
                Ok(step)
            }
            Err(what) => {
                let input = Some(Input::step(state, self.bench.memory().to_vec()));
                self.bench.recover();
                Err(Failure { what, input })
            }
        }
    }

    /// One step, after which the bench is back at its background.
    pub fn lone_step(&mut self, state: State) -> Outcome {
        self.step(state)?;
        self.bench.rewind();
        Ok(())
    }

    /// An input that doesn't use the bench's background.
    pub fn check(&mut self, input: Input) -> Result<Judged, Failure> {
        match check(&mut self.bench, &input) {
            Ok(judged) => {
                self.tally.count(judged);
                Ok(judged)
            }
            Err(what) => Err(Failure {
                what,
                input: Some(input),
            }),
        }
    }
}
