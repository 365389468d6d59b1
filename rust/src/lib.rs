//! A proved core for the SM83.
//!
//! The host keeps the state, a plain [`Cpu`], and lends the memory, 65,536 bytes. Nothing is to be
//! tested before a call: any state, memory, budget and image is either done or refused, with one of
//! the numbers of [`Refusal`]. The core keeps nothing between two calls, so that any number of
//! machines can run, in any threads.
//!
//! - [`step`] takes one step and [`run`] takes steps until a budget of cycles is met;
//! - [`run_image`] runs a saved image where it lies, and [`open_mut`] lends one as an [`Image`] that
//!   can be looked at, written to, stepped and run; both leave the image's state and its memory
//!   together, also where the run ends early;
//! - [`open`] reads an image where it lies, and [`save_image`] writes one of a state and a memory;
//! - [`save`] and [`load`] write and read a head, the 23 bytes of a saved state;
//! - [`length`] and [`untaken_cycles`] look an opcode up;
//! - [`list`] writes bytes as text, one line an instruction, in either [`Edition`] of the spelling;
//!   `listing` answers it as a string;
//! - [`assemble`] makes bytes of such text, of either edition and with sums for its numbers;
//!   `assembled` answers them as a vector.
//!
//! The memory is never copied, except into an image that is saved.
//!
//! ```
//! use trnadulek::{run, Cpu, MEMORY_SIZE};
//!
//! // 199 and 1 as decimal digits, two to a byte, least byte first, and the routine that adds them.
//! let adding = [0xA7, 0x1A, 0x8E, 0x27, 0x22, 0x13, 0x05, 0x20, 0xF8, 0xC9];
//! let mut memory = vec![0; MEMORY_SIZE];
//! memory[0x0150..0x015A].copy_from_slice(&adding);
//! memory[0xC000..0xC002].copy_from_slice(&[0x99, 0x01]);
//! memory[0xC100..0xC102].copy_from_slice(&[0x01, 0x00]);
//! memory[0xDFFE..0xE000].copy_from_slice(&[0x34, 0x12]);
//! let cpu = Cpu { pc: 0x0150, h: 0xC0, d: 0xC1, sp: 0xDFFE, b: 2, ..Cpu::default() };
//!
//! let ran = run(cpu, &mut memory, 30)?;
//!
//! assert_eq!((ran.spent, ran.steps), (30, 16));
//! assert_eq!(ran.cpu.pc, 0x1234);
//! assert_eq!(memory[0xC000..0xC002], [0x00, 0x02]);
//! # Ok::<(), trnadulek::Ended>(())
//! ```
//!
//! The feature `std`, which is on by default, gives the errors `std::error::Error`, and `listing` and
//! `assembled`. Without it the crate is `no_std`.
//!
//! # The library
//!
//! The build links `libtrnadulek.a` from the folder that the environment variable `TRNADULEK_LIB`
//! names. A relative name is taken from where cargo is called, and if there is no library there from
//! the repository. Without the variable the folder is the repository's `crates/trnadulek/out`, where
//! `rt lib`, called in `crates/trnadulek`, makes the library; one that is older than the proved
//! sources is built with, and reported by a warning.

#![no_std]
#![warn(missing_docs)]

#[cfg(feature = "std")]
extern crate std;

mod assembling;
mod cpu;
mod edition;
mod image;
#[doc(hidden)]
#[allow(missing_docs)] // The header says what each call does.
pub mod link;
mod listing;
mod refusal;
mod saved;
mod steps;
mod table;
mod version;

#[cfg(feature = "std")]
pub use assembling::assembled;
pub use assembling::{assemble, Fault};
pub use cpu::{Cpu, Ime, Mode, UnknownName};
pub use edition::Edition;
pub use image::{open_mut, run_image, Image};
#[cfg(feature = "std")]
pub use listing::listing;
pub use listing::{list, LISTING_PER_BYTE};
pub use refusal::{Refusal, UnknownNumber};
pub use saved::{load, open, save, save_image, HEAD_SIZE, IMAGE_SIZE, STATE_SIZE};
pub use steps::{run, step, Ended, Ran, Stepped, LARGEST_BUDGET, LARGEST_EXCESS, MEMORY_SIZE};
pub use table::{length, untaken_cycles};
pub use version::{version, VERSION};
