//! The program's text on the inputs that `compare inputs` writes, and on random ones.

use crate::context::{Context, Failure, Outcome};
use crate::input::{Input, Kind};
use crate::inputs;

const RANDOM_INPUTS: usize = 200;

/// The second line that document 01 gives for its worked example.
const EXAMPLE_LINE: &str = "0 30 16 02C0 0000 C102 C002 E000 1234 0 0";

pub fn program(context: &mut Context) -> Outcome {
    let example = second::program(&inputs::worked_example());
    if example.lines().nth(1) != Some(EXAMPLE_LINE) {
        return Err(Failure {
            what: format!("the worked example printed {example:?}"),
            input: Some(Input::bytes(Kind::Program, inputs::worked_example())),
        });
    }
    for file in inputs::all() {
        context.check(Input::bytes(Kind::Program, file.bytes))?;
    }
    for _ in 0..RANDOM_INPUTS {
        let bytes = inputs::random_run(&mut context.rng);
        context.check(Input::bytes(Kind::Program, bytes))?;
    }
    Ok(())
}
