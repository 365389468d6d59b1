//! Saved machines that the core has opened.

use std::path::Path;

use trnadulek::{load, open, Cpu, Refusal, HEAD_SIZE, IMAGE_SIZE};

use crate::input::Input;
use crate::refused;
use crate::trouble::Trouble;

/// A head or an image that is not refused.
pub struct Saved {
    pub cpu: Cpu,
    pub input: Input,
}

impl Saved {
    /// A head or an image.
    pub fn read(path: &Path) -> Result<Self, Trouble> {
        let input = Input::read(path, IMAGE_SIZE)?;
        Saved::judged(input).map_err(|words| Trouble::said(path, &words))
    }

    /// The same of bytes that were read; refused, it is the words for it.
    pub fn judged(input: Input) -> Result<Self, String> {
        // What has not the length of an image may be a head.
        let opened = match open(&input.bytes) {
            Err(Refusal::Length) => load(&input.bytes),
            opened => opened.map(|(cpu, _)| cpu),
        };
        match opened {
            Ok(cpu) => Ok(Saved { cpu, input }),
            Err(refusal) => Err(refused::as_saved(refusal, &input, true)),
        }
    }

    /// An image alone.
    pub fn image(path: &Path) -> Result<Self, Trouble> {
        let input = Input::read(path, IMAGE_SIZE)?;
        match open(&input.bytes).map(|(cpu, _)| cpu) {
            Ok(cpu) => Ok(Saved { cpu, input }),
            Err(refusal) => Err(Trouble::said(
                path,
                &refused::as_saved(refusal, &input, false),
            )),
        }
    }

    /// The memory of an image; a head has none.
    pub fn memory(&self) -> &[u8] {
        &self.input.bytes[HEAD_SIZE..]
    }

    pub fn is_image(&self) -> bool {
        self.input.bytes.len() == IMAGE_SIZE
    }

    pub fn kind(&self) -> &'static str {
        match self.is_image() {
            true => "image",
            false => "head",
        }
    }
}
