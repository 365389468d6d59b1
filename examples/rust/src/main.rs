//! A guest returns a flat unit and takes a charged one, and the saved game moves across.
//!
//! An image comes from the flat unit. It is run for a frame where it lies, saved, opened on the
//! charged unit and run on. The game adds 1 to its score in each frame.

use std::error::Error;
use trnadulek::{open, open_mut, save_image, Cpu, Mode, Refusal, IMAGE_SIZE, MEMORY_SIZE};

const FRAME_CYCLES: u32 = 17_556;

/// Two bytes, four decimal digits, least byte first.
const SCORE: usize = 0xC000;
/// What a frame adds to it.
const WON: usize = 0xC100;
const REQUESTS: u16 = 0xFF0F;
const ENABLED: usize = 0xFFFF;
const NEW_FRAME: u8 = 0x01;

/// Waits for the next frame, then calls the adding routine on the score; over and over.
#[rustfmt::skip]
const GAME: [u8; 17] = [
    0x76,             // 0100 HALT
    0xAF,             // 0101 XOR A
    0xE0, 0x0F,       // 0102 LDH [$FF0F],A
    0x21, 0x00, 0xC0, // 0104 LD HL,$C000
    0x11, 0x00, 0xC1, // 0107 LD DE,$C100
    0x06, 0x02,       // 010A LD B,2
    0xCD, 0x50, 0x01, // 010C CALL $0150
    0x18, 0xEF,       // 010F JR $0100
];
const ADDING_ROUTINE: [u8; 10] = [0xA7, 0x1A, 0x8E, 0x27, 0x22, 0x13, 0x05, 0x20, 0xF8, 0xC9];

/// The image that the flat unit saved: the game waits for a frame, the score is 199.
fn saved_image() -> Result<Vec<u8>, Refusal> {
    let mut memory = vec![0; MEMORY_SIZE];
    memory[0x0100..0x0111].copy_from_slice(&GAME);
    memory[0x0150..0x015A].copy_from_slice(&ADDING_ROUTINE);
    memory[SCORE..SCORE + 2].copy_from_slice(&[0x99, 0x01]);
    memory[WON..WON + 2].copy_from_slice(&[0x01, 0x00]);
    memory[ENABLED] = NEW_FRAME;
    let cpu = Cpu {
        sp: 0xDFFE,
        pc: 0x0101,
        mode: Mode::Halted,
        ..Cpu::default()
    };
    let mut image = vec![0; IMAGE_SIZE];
    save_image(cpu, &memory, &mut image)?;
    Ok(image)
}

fn show_score(unit: &str, image: &[u8]) -> Result<(), Refusal> {
    let (_, memory) = open(image)?;
    println!("{unit}: score {:X}{:02X}", memory[SCORE + 1], memory[SCORE]);
    Ok(())
}

/// A frame: the game is told of it, and gets its cycles. The image is changed where it lies, and
/// has every step that was taken, also where the game ends before its frame.
fn run_frame(image: &mut [u8]) -> Result<(), Box<dyn Error>> {
    let mut image = open_mut(image)?;
    image.set_byte(REQUESTS, image.byte(REQUESTS) | NEW_FRAME);
    let ran = image.run(FRAME_CYCLES)?;
    println!("  a frame: {} cycles, {} steps", ran.spent, ran.steps);
    Ok(())
}

fn main() -> Result<(), Box<dyn Error>> {
    let mut unit_one = saved_image()?;
    show_score("flat unit", &unit_one)?;
    run_frame(&mut unit_one)?;
    show_score("flat unit", &unit_one)?;

    // The image is all there is to move. The charged unit opens it before it goes on.
    let mut unit_two = unit_one.clone();
    show_score("charged unit", &unit_two)?;
    run_frame(&mut unit_two)?;
    show_score("charged unit", &unit_two)?;
    Ok(())
}
