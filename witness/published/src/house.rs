//! House rules of document 01 on which a published set may part from it.

use crate::compare::{Difference, Place};

/// The opcode bytes that `--house` is about.
const ROWS: [u8; 2] = [0x10, 0x76];

/// What `--house` excuses, for the output.
pub const SENTENCE: &str =
    "house rules: in rows 10 (STOP, 2 bytes, 1 cycle) and 76 (HALT, 1 cycle) \
                            a difference in cycles or pc is listed and excused";

/// Whether the house rules explain all differences of a case.
pub fn excuses(opcode: u8, differences: &[Difference]) -> bool {
    ROWS.contains(&opcode)
        && differences
            .iter()
            .all(|d| matches!(d.place, Place::Cycles | Place::Register("pc")))
}
