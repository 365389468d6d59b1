use core::fmt::{self, Display, Formatter};

use crate::cpu::Cpu;
use crate::link;
use crate::refusal::Refusal;

/// Bytes of the memory.
pub const MEMORY_SIZE: usize = 65_536;

/// A run with a higher budget is refused.
pub const LARGEST_BUDGET: u32 = 1_048_576;

/// The most cycles that a run can spend beyond its budget.
pub const LARGEST_EXCESS: u32 = 5;

/// A step that was taken: the state after it, and what it cost.
#[derive(Clone, Copy, PartialEq, Eq, Hash, Debug)]
pub struct Stepped {
    /// The state after the step.
    pub cpu: Cpu,
    /// The step's cycles.
    pub cycles: u8,
}

/// What steps came to: the state after them, what they cost and how many they were.
#[derive(Clone, Copy, PartialEq, Eq, Hash, Debug)]
pub struct Ran {
    /// The state after the last step.
    pub cpu: Cpu,
    /// The cycles spent.
    pub spent: u32,
    /// The steps taken.
    pub steps: u32,
}

/// A run that did not come to its budget: why, and the steps before that, which stay.
///
/// It does not turn into a bare [`Refusal`] by `?`, as that would drop the state that the memory has
/// come to:
///
/// ```compile_fail,E0277
/// use trnadulek::{run, Cpu, Refusal};
///
/// fn frame(cpu: Cpu, memory: &mut [u8]) -> Result<Cpu, Refusal> {
///     Ok(run(cpu, memory, 17_556)?.cpu)
/// }
/// ```
#[derive(Clone, Copy, PartialEq, Eq, Hash, Debug)]
pub struct Ended {
    /// Why the run ended.
    pub refusal: Refusal,
    /// What it had come to.
    pub ran: Ran,
}

impl Display for Ended {
    fn fmt(&self, out: &mut Formatter<'_>) -> fmt::Result {
        let Ran { spent, steps, .. } = self.ran;
        write!(
            out,
            "{}, after {steps} steps and {spent} cycles",
            self.refusal
        )
    }
}

#[cfg(feature = "std")]
impl std::error::Error for Ended {
    fn source(&self) -> Option<&(dyn std::error::Error + 'static)> {
        Some(&self.refusal)
    }
}

impl Ran {
    /// What a run came to that the core answered with this number.
    pub(crate) fn judged(self, code: u8) -> Result<Ran, Ended> {
        match Refusal::judge(code) {
            Ok(()) => Ok(self),
            Err(refusal) => Err(Ended { refusal, ran: self }),
        }
    }
}

/// Takes one step.
///
/// # Errors
///
/// Refused, in this order, for the memory's length, F, a Stopped mode, an undefined opcode; a
/// refused step changes nothing.
///
/// ```
/// use trnadulek::{step, Cpu, Refusal, MEMORY_SIZE};
///
/// let mut memory = vec![0; MEMORY_SIZE];
/// memory[0x0100..0x0103].copy_from_slice(&[0x3C, 0x3C, 0xD3]); // INC A, INC A, undefined
///
/// let once = step(Cpu { pc: 0x0100, ..Cpu::default() }, &mut memory)?;
/// let twice = step(once.cpu, &mut memory)?;
/// assert_eq!((twice.cpu.a, twice.cpu.pc, twice.cycles), (2, 0x0102, 1));
///
/// assert_eq!(step(twice.cpu, &mut memory), Err(Refusal::UndefinedOpcode));
/// # Ok::<(), Refusal>(())
/// ```
pub fn step(cpu: Cpu, memory: &mut [u8]) -> Result<Stepped, Refusal> {
    let (mut block, mut cycles) = (cpu.block(), 0);
    Refusal::judge(link::step(&mut block, memory, &mut cycles))?;
    Ok(Stepped {
        cpu: Cpu::from_block(block),
        cycles,
    })
}

/// Takes steps while the cycles spent are below the budget, so that it spends at least the budget
/// and at most [`LARGEST_EXCESS`] more.
///
/// The steps go into the memory, and the state after them is in the answer, in [`Ran`] or in
/// [`Ended`]: the two belong together. An image that is run where it lies keeps them together by
/// itself, by [`run_image`](crate::run_image) or [`open_mut`](crate::open_mut).
///
/// # Errors
///
/// Refused, in this order, for the memory's length, F, the budget; then nothing is changed and
/// nothing spent. A step that is refused, for a Stopped mode or an undefined opcode, ends the run:
/// the steps before it stay, and [`Ended`] has what they came to.
///
/// ```
/// use trnadulek::{run, Cpu, Ended, Mode, Refusal, MEMORY_SIZE};
///
/// let mut memory = vec![0; MEMORY_SIZE];
/// memory[0x0100..0x0104].copy_from_slice(&[0x3C, 0x3C, 0x10, 0x00]); // INC A, INC A, STOP
///
/// let cpu = Cpu { pc: 0x0100, ..Cpu::default() };
/// let Ended { refusal, ran } = run(cpu, &mut memory, 1_000).unwrap_err();
/// assert_eq!(refusal, Refusal::Stopped);
/// assert_eq!((ran.cpu.a, ran.cpu.mode), (2, Mode::Stopped));
/// assert_eq!((ran.spent, ran.steps), (3, 3));
/// ```
pub fn run(cpu: Cpu, memory: &mut [u8], budget: u32) -> Result<Ran, Ended> {
    let (mut block, mut spent, mut steps) = (cpu.block(), 0, 0);
    let code = link::run(&mut block, memory, budget, &mut spent, &mut steps);
    let cpu = Cpu::from_block(block);
    Ran { cpu, spent, steps }.judged(code)
}
