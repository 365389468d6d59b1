//! The opcode table, and the numbers that are no row.

use crate::context::{Context, Outcome};
use crate::input::{Input, Kind};
use second::State;

const FAR_ROWS: [u32; 7] = [
    65_535,
    65_536,
    65_537,
    1 << 31,
    (1 << 31) + 1,
    u32::MAX - 1,
    u32::MAX,
];

pub fn table(context: &mut Context) -> Outcome {
    for row in (0..1024).chain(FAR_ROWS) {
        context.check(Input::new(Kind::Row, State::default(), row, Vec::new()))?;
    }
    Ok(())
}
