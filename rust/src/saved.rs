use crate::cpu::Cpu;
use crate::link::{self, Block};
use crate::refusal::Refusal;
use crate::steps::MEMORY_SIZE;

/// Bytes of a head.
pub const HEAD_SIZE: usize = 23;

/// Bytes of a state block, the part of a head that is the state itself. Later versions may have
/// more.
pub const STATE_SIZE: usize = 14;

/// Bytes of an image: a head, and the memory after it.
pub const IMAGE_SIZE: usize = HEAD_SIZE + MEMORY_SIZE;

/// Loads a head.
///
/// # Errors
///
/// Refused, in this order, for the length, the version, the two lengths inside, the codes of IME and
/// mode, F.
///
/// ```
/// use trnadulek::{load, save, Cpu, HEAD_SIZE};
///
/// let cpu = Cpu { a: 0x42, pc: 0x0150, ..Cpu::default() };
/// let mut head = [0; HEAD_SIZE];
/// save(cpu, &mut head)?;
/// assert_eq!(load(&head)?, cpu);
/// # Ok::<(), trnadulek::Refusal>(())
/// ```
pub fn load(head: &[u8]) -> Result<Cpu, Refusal> {
    let mut block = Block::default();
    Refusal::judge(link::load_head(head, &mut block))?;
    Ok(Cpu::from_block(block))
}

/// Saves a state as a head.
///
/// # Errors
///
/// Refused, in this order, for the head's length, F; then the head is unchanged.
///
/// ```
/// use trnadulek::{save, Cpu, Refusal, HEAD_SIZE};
///
/// let mut head = [0xEE; HEAD_SIZE];
/// let low_bit = Cpu { f: 0x01, ..Cpu::default() };
/// assert_eq!(save(low_bit, &mut head), Err(Refusal::FlagBits));
/// assert_eq!(head, [0xEE; HEAD_SIZE]);
/// ```
pub fn save(cpu: Cpu, head: &mut [u8]) -> Result<(), Refusal> {
    Refusal::judge(link::save_head(&cpu.block(), head))
}

/// Opens an image: its state, and its memory, which is a part of the image.
///
/// # Errors
///
/// Refused as [`load`] refuses.
///
/// ```
/// use trnadulek::{open, save_image, Cpu, IMAGE_SIZE, MEMORY_SIZE};
///
/// let mut image = vec![0; IMAGE_SIZE];
/// save_image(Cpu { a: 7, ..Cpu::default() }, &vec![0x76; MEMORY_SIZE], &mut image)?;
///
/// let (cpu, memory) = open(&image)?;
/// assert_eq!((cpu.a, memory[0xFFFF]), (7, 0x76));
/// # Ok::<(), trnadulek::Refusal>(())
/// ```
pub fn open(image: &[u8]) -> Result<(Cpu, &[u8]), Refusal> {
    let mut block = Block::default();
    Refusal::judge(link::open_image(image, &mut block))?;
    Ok((Cpu::from_block(block), &image[HEAD_SIZE..]))
}

/// Saves a state and a memory as an image.
///
/// # Errors
///
/// Refused, in this order, for the image's length, the memory's length, F; then the image is
/// unchanged.
pub fn save_image(cpu: Cpu, memory: &[u8], image: &mut [u8]) -> Result<(), Refusal> {
    Refusal::judge(link::save_image(&cpu.block(), memory, image))
}
