//! Images run where they lie: the orders of the refusals, a game that stops, random runs.

use super::runs::{any_state, programs, some_noise, BUDGETS};
use super::saved::FAULTS;
use crate::context::{Context, Failure, Outcome};
use crate::input::Input;
use crate::paper::{self, BUDGET_LIMIT, MEMORY_SIZE, UNDEFINED_BYTES};
use second::{Mode, State};

pub fn run_image(context: &mut Context) -> Outcome {
    refused_in_order(context)?;
    a_game_that_stops(context)?;
    limits(context)?;
    random_images(context)
}

fn image_of(state: &State, memory: &[u8]) -> Vec<u8> {
    [&paper::head(state)[..], memory].concat()
}

/// Two faults of a head at once, of a Running and of a Stopped machine at an undefined byte, with
/// a budget that is right and one that is not.
fn refused_in_order(context: &mut Context) -> Outcome {
    let memory = vec![UNDEFINED_BYTES[0]; MEMORY_SIZE];
    for mode in [Mode::Running, Mode::Stopped] {
        let state = State {
            mode,
            ..State::default()
        };
        let image = image_of(&state, &memory);
        under_both_budgets(context, &image, &[])?;
        for one in FAULTS {
            with_each_fault(context, &image, one)?;
        }
    }
    Ok(())
}

fn with_each_fault(context: &mut Context, image: &[u8], one: (usize, u8)) -> Outcome {
    for other in FAULTS {
        under_both_budgets(context, image, &[one, other])?;
    }
    Ok(())
}

fn under_both_budgets(context: &mut Context, image: &[u8], faults: &[(usize, u8)]) -> Outcome {
    let mut image = image.to_vec();
    for (place, value) in faults {
        image[*place] = *value;
    }
    for budget in [1, BUDGET_LIMIT + 1] {
        context.check(Input::run_image(image.clone(), budget))?;
    }
    Ok(())
}

/// `LD HL,$C000; INC [HL]; INC [HL]; STOP`.
const GAME: [u8; 7] = [0x21, 0x00, 0xC0, 0x34, 0x34, 0x10, 0x00];
const FRAME: u32 = 17_556;

/// The game is run three times where it lies. Its score is 2 after the first and stays so, PC is
/// after STOP's two bytes, and the mode is Stopped.
fn a_game_that_stops(context: &mut Context) -> Outcome {
    let mut memory = vec![0; MEMORY_SIZE];
    memory[..GAME.len()].copy_from_slice(&GAME);
    let fresh = image_of(&State::default(), &memory);
    let stopped = State {
        h: 0xC0,
        pc: GAME.len() as u16,
        mode: Mode::Stopped,
        ..State::default()
    };
    memory[0xC000] = 2;
    let ended = image_of(&stopped, &memory);
    let mut image = fresh;
    for _ in 0..3 {
        context.check(Input::run_image(image.clone(), FRAME))?;
        image = second_runs(&image, FRAME);
        if image != ended {
            return Err(Failure {
                what: "the game that stops went on".to_string(),
                input: Some(Input::run_image(image, FRAME)),
            });
        }
    }
    Ok(())
}

/// The image after a run, which the check has held every judge to.
pub fn second_runs(image: &[u8], budget: u32) -> Vec<u8> {
    let (_, state, memory) = second::open_image(image);
    let mut memory = memory.to_vec();
    let ran = second::run(state, &mut memory, budget);
    image_of(&ran.state, &memory)
}

/// Each budget on programs that go on for ever, end at once, or cost much.
fn limits(context: &mut Context) -> Outcome {
    for (state, memory) in programs(&mut context.rng) {
        let image = image_of(&state, &memory);
        for budget in BUDGETS.into_iter().filter(is_short) {
            context.check(Input::run_image(image.clone(), budget))?;
        }
    }
    Ok(())
}

/// The longest runs are compared under `budgets`, by the run that an image's run is made of.
fn is_short(budget: &u32) -> bool {
    !(BUDGET_LIMIT - 1..=BUDGET_LIMIT).contains(budget)
}

const IMAGES: usize = 500;

fn random_images(context: &mut Context) -> Outcome {
    for _ in 0..IMAGES {
        let rng = &mut context.rng;
        let state = any_state(rng);
        let image = image_of(&state, &some_noise(rng));
        let budget = rng.below(3_000);
        context.check(Input::run_image(image, budget))?;
    }
    Ok(())
}
