use core::fmt::{self, Debug, Formatter};

use crate::cpu::Cpu;
use crate::link;
use crate::refusal::Refusal;
use crate::saved::{open, save, HEAD_SIZE};
use crate::steps::{Ended, Ran, Stepped};

/// Runs an image where it lies, as [`run`](crate::run) runs a state and a memory. Nothing is copied.
///
/// Whatever comes of it, the image's state and its memory belong together afterwards: the image is
/// the one that a save of the state and the memory after the run would write.
///
/// # Errors
///
/// Refused, in this order, for the image as [`open`] refuses, and for the budget; then the image is
/// unchanged and nothing is spent. Where the image is none, [`Ended`] has the default [`Cpu`]. A
/// step that is refused, for a Stopped mode or an undefined opcode, ends the run: the steps before
/// it stay, in the image, and [`Ended`] says what they came to.
///
/// ```
/// use trnadulek::{open, run_image, save_image, Cpu, Mode, Refusal, IMAGE_SIZE, MEMORY_SIZE};
///
/// // LD HL,$C000; INC [HL]; INC [HL]; STOP: a game that scores 2 and stops.
/// let mut memory = vec![0; MEMORY_SIZE];
/// memory[..7].copy_from_slice(&[0x21, 0x00, 0xC0, 0x34, 0x34, 0x10, 0x00]);
/// let mut image = vec![0; IMAGE_SIZE];
/// save_image(Cpu::default(), &memory, &mut image)?;
///
/// for steps in [4, 0, 0] {
///     let ended = run_image(&mut image, 17_556).unwrap_err();
///     assert_eq!((ended.refusal, ended.ran.steps), (Refusal::Stopped, steps));
///     let (cpu, memory) = open(&image)?;
///     assert_eq!((cpu.pc, cpu.mode, memory[0xC000]), (7, Mode::Stopped, 2));
/// }
/// # Ok::<(), Refusal>(())
/// ```
pub fn run_image(image: &mut [u8], budget: u32) -> Result<Ran, Ended> {
    let (mut spent, mut steps) = (0, 0);
    let code = link::run_image(image, budget, &mut spent, &mut steps);
    let cpu = open(image).map_or_else(|_| Cpu::default(), |(cpu, _)| cpu);
    Ran { cpu, spent, steps }.judged(code)
}

/// An image that lies in a host's bytes and is lent by [`open_mut`]. What it is asked to do leaves
/// the state in the image and its memory together.
///
/// The memory is lent to be read and not to be written, so that no step goes into it without the
/// state following:
///
/// ```compile_fail,E0308
/// use trnadulek::{open_mut, run, Ended, Refusal};
///
/// fn frame(bytes: &mut [u8]) -> Result<(), Refusal> {
///     let image = open_mut(bytes)?;
///     let torn = run(image.cpu(), image.memory(), 17_556);
///     Ok(())
/// }
/// ```
pub struct Image<'a> {
    /// Opened once, and nothing but a valid head is written over its head.
    bytes: &'a mut [u8],
}

/// Opens an image that is to be stepped, run or written to where it lies. Nothing is copied.
///
/// # Errors
///
/// Refused as [`open`] refuses; then the image is unchanged.
///
/// ```
/// use trnadulek::{open_mut, save_image, Cpu, Mode, IMAGE_SIZE, MEMORY_SIZE};
///
/// let mut bytes = vec![0; IMAGE_SIZE];
/// save_image(Cpu { mode: Mode::Halted, ..Cpu::default() }, &vec![0; MEMORY_SIZE], &mut bytes)?;
///
/// let mut image = open_mut(&mut bytes)?;
/// image.set_byte(0xFFFF, 0x01); // The request of a new frame is enabled,
/// image.set_byte(0xFF0F, 0x01); // and raised.
/// match image.run(17_556) {
///     Ok(ran) => assert_eq!(ran.spent, 17_556),
///     Err(ended) => println!("{ended}; what it had come to is in the image"),
/// }
/// assert_eq!(image.cpu().mode, Mode::Running);
/// # Ok::<(), trnadulek::Refusal>(())
/// ```
pub fn open_mut(image: &mut [u8]) -> Result<Image<'_>, Refusal> {
    open(image)?;
    Ok(Image { bytes: image })
}

impl Image<'_> {
    /// The state in the image.
    pub fn cpu(&self) -> Cpu {
        self.opened().0
    }

    /// Writes another state into the image, to wake a Stopped machine for instance.
    ///
    /// # Errors
    ///
    /// Refused for F; then the image is unchanged.
    pub fn set_cpu(&mut self, cpu: Cpu) -> Result<(), Refusal> {
        save(cpu, &mut self.bytes[..HEAD_SIZE])
    }

    /// The memory in the image.
    pub fn memory(&self) -> &[u8] {
        self.opened().1
    }

    /// The byte of the memory at an address.
    pub fn byte(&self, address: u16) -> u8 {
        self.memory()[usize::from(address)]
    }

    /// Writes a byte of the memory, to raise a request at `$FF0F` for instance.
    pub fn set_byte(&mut self, address: u16, byte: u8) {
        self.bytes[HEAD_SIZE + usize::from(address)] = byte;
    }

    /// Takes one step.
    ///
    /// # Errors
    ///
    /// Refused, in this order, for a Stopped mode, an undefined opcode; then the image is unchanged.
    pub fn step(&mut self) -> Result<Stepped, Refusal> {
        match self.run(1) {
            // One step costs 1 to 6 cycles.
            Ok(Ran { cpu, spent, .. }) => Ok(Stepped {
                cpu,
                cycles: spent as u8,
            }),
            Err(refused) => Err(refused.refusal),
        }
    }

    /// Takes steps while the cycles spent are below the budget, as [`run_image`] does.
    ///
    /// # Errors
    ///
    /// Refused for the budget; then the image is unchanged and nothing is spent. A step that is
    /// refused, for a Stopped mode or an undefined opcode, ends the run: the steps before it stay, in
    /// the image, and [`Ended`] says what they came to.
    pub fn run(&mut self, budget: u32) -> Result<Ran, Ended> {
        run_image(self.bytes, budget)
    }

    fn opened(&self) -> (Cpu, &[u8]) {
        open(self.bytes).expect("what was opened can be opened")
    }
}

impl Debug for Image<'_> {
    fn fmt(&self, out: &mut Formatter<'_>) -> fmt::Result {
        out.debug_struct("Image")
            .field("cpu", &self.cpu())
            .finish_non_exhaustive()
    }
}
