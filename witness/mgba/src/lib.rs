//! Witness two: mGBA's bare SM83 core, driven one step at a time over flat memory.
//!
//! What mGBA judges is what its core does by itself: instructions, dispatch and the
//! order within it, the repeated byte after a HALT, cycles. Four things are the
//! board's and not the core's, and `shim.c` is that board: idling while halted, the
//! cycle by which an EI is late, what a HALT turns into, and the choice of the
//! vector, for which the core asks between the two stores of a dispatch.

use second::{Ime, Mode, State};
use std::ptr::NonNull;

/// The length of the memory that a step works on.
pub const MEMORY_SIZE: usize = 65_536;

const IF_ADDRESS: usize = 0xFF0F;
const IE_ADDRESS: usize = 0xFFFF;

/// `struct shim_state` of `shim.c`.
#[repr(C)]
struct ShimState {
    bytes: [u8; 8],
    sp: u16,
    pc: u16,
    ime: u8,
    mode: u8,
}

/// `struct shim_effect` of `shim.c`.
#[repr(C)]
struct ShimEffect {
    cycles: u32,
    fetched: u32,
    illegal: u8,
}

#[repr(C)]
struct Board {
    _private: [u8; 0],
}

extern "C" {
    fn shim_new() -> *mut Board;
    fn shim_free(board: *mut Board);
    fn shim_step(board: *mut Board, state: *mut ShimState, memory: *mut u8) -> ShimEffect;
}

/// What one step of mGBA's core did.
#[derive(Clone, Copy, PartialEq, Eq, Debug)]
pub struct Outcome {
    /// The processor after the step.
    pub state: State,
    /// Ticks of the core.
    pub cycles: u32,
    /// Bytes read through the program counter: the instruction's length, 0 for a dispatch.
    pub fetched: u32,
    /// The core met an opcode that it doesn't define. The rest of the outcome is then void.
    pub illegal: bool,
}

/// One core of mGBA's.
pub struct Core {
    board: NonNull<Board>,
}

impl Core {
    /// A core with nothing in it; each step brings its own state and memory.
    pub fn new() -> Self {
        // SAFETY: takes nothing, and answers a board of our own or null.
        let board = unsafe { shim_new() };
        Core {
            board: NonNull::new(board).expect("no memory for mGBA's core"),
        }
    }

    /// One step: an instruction, a dispatch, or one idle cycle.
    ///
    /// # Panics
    ///
    /// When the memory is not 65,536 bytes long.
    pub fn step(&mut self, state: &State, memory: &mut [u8]) -> Outcome {
        assert_eq!(
            memory.len(),
            MEMORY_SIZE,
            "mGBA's core wants all of the memory"
        );
        let mut shim = to_shim(state);
        // SAFETY: the board is live until the drop, the state is ours, and every
        // 16-bit address lies inside the memory by the assertion above.
        let effect = unsafe { shim_step(self.board.as_ptr(), &mut shim, memory.as_mut_ptr()) };
        Outcome {
            state: from_shim(&shim),
            cycles: effect.cycles,
            fetched: effect.fetched,
            illegal: effect.illegal != 0,
        }
    }
}

impl Default for Core {
    fn default() -> Self {
        Self::new()
    }
}

impl Drop for Core {
    fn drop(&mut self) {
        // SAFETY: the board came from `shim_new` and is given back once.
        unsafe { shim_free(self.board.as_ptr()) }
    }
}

/// The requests that are both enabled and raised.
pub fn pending(memory: &[u8]) -> u8 {
    memory[IE_ADDRESS] & memory[IF_ADDRESS] & 0x1F
}

/// Whether mGBA's core can say what the next step is. It can't where document 01
/// refuses before an opcode is read (memory length, low bits of F, Stopped), and
/// not for an idle step, which is the board's. Of an undefined opcode it says just
/// that: see [`Outcome::illegal`].
pub fn judges(state: &State, memory: &[u8]) -> bool {
    memory.len() == MEMORY_SIZE
        && state.f & 0x0F == 0
        && match state.mode {
            Mode::Running | Mode::Repeat => true,
            Mode::Halted => pending(memory) != 0,
            Mode::Stopped => false,
        }
}

fn to_shim(s: &State) -> ShimState {
    ShimState {
        bytes: [s.a, s.f, s.b, s.c, s.d, s.e, s.h, s.l],
        sp: s.sp,
        pc: s.pc,
        ime: s.ime.code(),
        mode: s.mode.code(),
    }
}

fn from_shim(shim: &ShimState) -> State {
    let [a, f, b, c, d, e, h, l] = shim.bytes;
    State {
        a,
        f,
        b,
        c,
        d,
        e,
        h,
        l,
        sp: shim.sp,
        pc: shim.pc,
        ime: Ime::from_code(shim.ime).expect("the shim answers codes 0 to 2"),
        mode: Mode::from_code(shim.mode).expect("the shim answers codes 0 to 3"),
    }
}
