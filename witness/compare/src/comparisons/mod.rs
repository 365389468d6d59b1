//! The comparisons, each under its name.

mod adding;
mod addresses;
mod assembling;
mod bytes;
mod cases;
mod halt;
mod interrupts;
mod lengths;
mod listing;
mod program;
mod refusals;
mod rows;
mod run_image;
mod runs;
mod saved;
mod spellings;
mod table;
mod words;
mod wrap;

pub use run_image::second_runs;

use crate::context::{Context, Outcome};
use Peers::{Both, Mgba, Neither, Plain};

#[derive(Clone, Copy)]
pub struct Comparison {
    pub name: &'static str,
    pub about: &'static str,
    pub peers: Peers,
    pub run: fn(&mut Context) -> Outcome,
}

/// Which of mGBA's core and the plain core can judge some of a comparison's inputs. One
/// that can and judges none fails it.
#[derive(Clone, Copy)]
pub enum Peers {
    Both,
    Mgba,
    Plain,
    Neither,
}

impl Peers {
    pub fn mgba(self) -> bool {
        matches!(self, Both | Mgba)
    }

    pub fn plain(self) -> bool {
        matches!(self, Both | Plain)
    }
}

fn comparison(
    name: &'static str,
    about: &'static str,
    peers: Peers,
    run: fn(&mut Context) -> Outcome,
) -> Comparison {
    Comparison {
        name,
        about,
        peers,
        run,
    }
}

/// All of them, in the order in which they are run.
#[rustfmt::skip] // One line for each.
pub fn all() -> [Comparison; 35] {
    [
        comparison("cases", "the twelve cases of document 01", Both, cases::cases),
        comparison("table", "every row, and rows above 511", Mgba, table::table),
        comparison("rows-running", "500 rows, random states, Running", Both, rows::running),
        comparison("rows-repeat", "500 rows, random states, Repeat", Both, rows::repeat),
        comparison("rows-woken", "500 rows, Halted with a request", Both, rows::woken),
        comparison("daa", "DAA on every A and F", Both, bytes::daa),
        comparison("alu", "eight operations, every A, operand, carry", Both, bytes::alu),
        comparison("one-byte", "INC, DEC, rotates, every byte and F", Both, bytes::one_byte),
        comparison("add-hl", "ADD HL at every carry edge", Both, words::add_hl),
        comparison("add-sp", "ADD SP, LD HL,SP+e8: every low byte and e8", Both, words::add_sp),
        comparison("wrap", "PC, SP and two-byte accesses across $FFFF", Both, wrap::wrap),
        comparison("addresses", "every address, wherever one is held", Both, addresses::addresses),
        comparison("sequences", "EI, DI, RETI, HALT, STOP in sequence", Both, interrupts::sequences),
        comparison("dispatch", "IE, IF and the stack at every meeting", Both, interrupts::dispatch),
        comparison("halt", "HALT, and handlers that return to it", Both, halt::halt),
        comparison("idle", "Halted without a request", Plain, interrupts::idle),
        comparison("undefined", "the eleven undefined bytes", Both, refusals::undefined),
        comparison("stopped", "a step that is due when Stopped", Plain, refusals::stopped),
        comparison("dirty", "low bits of F that are not 0", Plain, refusals::dirty),
        comparison("any", "any state and memory at all", Both, runs::any),
        comparison("walks", "steps one after the other", Both, runs::walks),
        comparison("runs", "random runs", Both, runs::runs),
        comparison("budgets", "budgets at both limits", Both, runs::budgets),
        comparison("run-image", "images run where they lie", Both, run_image::run_image),
        comparison("adding", "the adding routine, n from 1 to 256", Both, adding::adding),
        comparison("lengths", "every length one off each limit", Plain, lengths::lengths),
        comparison("heads", "each head byte at each of its values", Neither, saved::heads),
        comparison("images", "images opened and saved", Neither, saved::images),
        comparison("listing", "parts as text, in both editions and no other", Neither, listing::listing),
        comparison("spellings", "a line's spelling stands for its bytes alone", Neither, spellings::spellings),
        comparison("operands", "every form of a line, constants at the edges", Neither, assembling::operands),
        comparison("constants", "numbers, sums and brackets of any length", Neither, assembling::constants),
        comparison("lines", "lines changed a little, texts with faults", Neither, assembling::lines),
        comparison("round-trips", "listings assembled give their bytes back", Neither, assembling::round_trips),
        comparison("program", "the program's text", Both, program::program),
    ]
}

pub fn find(name: &str) -> Option<Comparison> {
    all().into_iter().find(|comparison| comparison.name == name)
}
