//! One input, held against every judge that can say something about it. The same
//! checks serve the comparisons, the search for a smaller input, and `again`.

mod adding;
mod assembling;
mod block;
mod image;
mod listing;
mod program;
mod run;
mod saved;
mod step;
mod table;

pub use adding::{field_digits, ROUTINE};

use crate::bench::{Bench, Judged};
use crate::input::{Input, Kind};

/// Who judged, or how two of them part.
pub type Verdict = Result<Judged, String>;

pub fn check(bench: &mut Bench, input: &Input) -> Verdict {
    match input.kind {
        Kind::Step => step::step(bench, input),
        Kind::Run => run::run(bench, input),
        Kind::RunImage => image::run_image(bench, input),
        Kind::Adding => adding::adding(bench, input),
        Kind::Load => saved::load(input),
        Kind::Open => saved::open(input),
        Kind::SaveHead => saved::save_head(input),
        Kind::SaveImage => saved::save_image(input),
        Kind::Block => block::block(input),
        Kind::List => listing::listing(input),
        Kind::Assemble => assembling::assembling(input),
        Kind::Row => table::row(bench, input),
        Kind::Program => program::program(bench, input),
    }
}
