//! Witness one: a second program for the SM83, written from document 01, M-100
//! to M-103 of document 02 and the rgbds instruction reference alone, to be held
//! against the proved core.
//!
//! Every opcode byte has a case of its own (`opcodes` and `prefixed`) and a
//! spelling of its own (`listing`), so the opcode grid of document 01 is nowhere
//! used to decode. The assembler (`assembler`) reads lines by themselves and counts
//! opcodes along the grid: it shares nothing with the listing.

#![forbid(unsafe_code)]

mod alu;
mod assembler;
mod jumps;
mod listing;
mod memory;
mod opcodes;
mod prefixed;
mod program;
mod refusal;
mod run;
mod saved;
mod state;
mod step;
mod table;

pub use assembler::{assemble, assembled_line, assembly, Assembled, Fault};
pub use listing::{list, listing};
pub use memory::SIZE as MEMORY_SIZE;
pub use program::{program, HEADER, INPUT_SIZE};
pub use refusal::sentence;
pub use run::{run, Ran, BUDGET_LIMIT};
pub use saved::{load_head, open_image, save_head, save_image, HEAD_SIZE, IMAGE_SIZE};
pub use state::{Ime, Mode, State};
pub use step::{step, Stepped};
pub use table::{length, untaken_cycles};
