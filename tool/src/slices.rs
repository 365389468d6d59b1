//! A run of any budget.

use trnadulek::{run_image, Ended, Ran, Refusal, LARGEST_BUDGET};

use crate::progress::Progress;
use crate::saved::Saved;
use crate::trouble::Trouble;
use crate::{refused, unix, words};

/// What the slices of a run came to.
#[derive(Default)]
pub struct Total {
    pub spent: u64,
    pub steps: u64,
    /// Why it did not come to its budget.
    pub ended: Option<Refusal>,
}

/// One run of an image where it lies. Each slice's budget is what is left after the cycles that were
/// really spent, up to the largest; so the slices add up to the one run.
pub fn run(image: &mut Saved, budget: u64) -> Result<Total, Trouble> {
    let mut progress = Progress::new(budget);
    let mut total = Total::default();
    while total.spent < budget && total.ended.is_none() {
        if unix::asked_to_end() {
            return Err(total.interrupted());
        }
        let left = budget - total.spent;
        let slice = u32::try_from(left).map_or(LARGEST_BUDGET, |left| left.min(LARGEST_BUDGET));
        total.add(run_image(&mut image.input.bytes, slice), image)?;
        progress.at(total.spent);
    }
    Ok(total)
}

impl Total {
    /// A slice, the state after it, and why it ended where that was a step.
    fn add(&mut self, slice: Result<Ran, Ended>, image: &mut Saved) -> Result<(), Trouble> {
        let (ran, refusal) = match slice {
            Ok(ran) => (ran, None),
            Err(ended) => (ended.ran, Some(ended.refusal)),
        };
        self.spent += u64::from(ran.spent);
        self.steps += u64::from(ran.steps);
        image.cpu = ran.cpu;
        match refusal {
            None | Some(Refusal::Stopped | Refusal::UndefinedOpcode) => self.ended = refusal,
            Some(refusal) => {
                let words = refused::as_saved(refusal, &image.input, false);
                return Err(Trouble::said(&image.input.path, &words));
            }
        }
        Ok(())
    }

    pub fn words(&self) -> String {
        format!(
            "{} in {}",
            words::count(self.spent, "cycle"),
            words::count(self.steps, "step")
        )
    }

    /// Why it did not come to its budget, in words.
    pub fn ending(&self, image: &Saved) -> Option<String> {
        let refusal = self.ended?;
        let pc = image.cpu.pc;
        let byte = image.memory()[usize::from(pc)];
        let found = match refusal {
            Refusal::Stopped => format!("PC is ${pc:04X}, and wake would let it go on from there"),
            _ => format!("found ${byte:02X} at PC, which is ${pc:04X}"),
        };
        let words = refused::said(refusal, &found);
        Some(format!("{}: {words}", image.input.name()))
    }

    fn interrupted(&self) -> Trouble {
        Trouble::Failed(format!("interrupted after {}", self.words()))
    }
}
