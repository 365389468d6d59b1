//! What a file is: an image, a dump or a cartridge, known by its length or said by an option.

use std::ops::Range;
use std::path::Path;

use trnadulek::{load, Edition, Refusal, HEAD_SIZE, IMAGE_SIZE, MEMORY_SIZE};

use crate::cartridge::{self, Cartridge};
use crate::input::Input;
use crate::listing::{Asked, Part, Which, ENOUGH};
use crate::saved::Saved;
use crate::trouble::Trouble;
use crate::{refused, words};

pub enum Kind {
    Image(Saved),
    Dump(Input),
    Cartridge(Input),
}

/// Bytes of a file that follow one another for the processor too.
pub struct Stretch {
    /// Where they lie in the file.
    pub place: Range<usize>,
    /// The address of the first one.
    pub first: u16,
    /// What they are the whole of.
    pub whole: String,
    /// Whether they are one bank of several.
    pub of_many: bool,
}

impl Stretch {
    /// Those of them from an address on, or the words for one that is not there.
    fn from(self, address: u16) -> Result<Self, String> {
        let (first, from) = (usize::from(self.first), usize::from(address));
        let all = first..first + self.place.len();
        if !all.contains(&from) {
            let place = words::place(all.start, all.end);
            return Err(format!("there is no ${from:04X}, only {place}"));
        }
        Ok(Stretch {
            place: self.place.start + from - first..self.place.end,
            first: address,
            ..self
        })
    }

    /// The last address, and what ends with it.
    pub fn end(&self) -> String {
        let last = usize::from(self.first) + self.place.len() - 1;
        format!("${last:04X}, the end of {}", self.whole)
    }
}

impl Kind {
    /// A file that an option says to be something, or else what its length says. Some options take
    /// one of any length as it is.
    pub fn read(file: &Path, said: Option<&str>, as_it_is: &str) -> Result<Self, Trouble> {
        match said {
            Some("--dump") => Self::dump(file),
            Some(_) => Self::cartridge(file),
            None => Self::known_by_length(file, as_it_is),
        }
    }

    fn dump(file: &Path) -> Result<Self, Trouble> {
        let input = Input::read(file, MEMORY_SIZE)?;
        if input.bytes.len() == MEMORY_SIZE {
            return Ok(Kind::Dump(input));
        }
        let words = refused::as_memory(Refusal::MemoryLength, &input);
        Err(Trouble::said(file, &words))
    }

    fn cartridge(file: &Path) -> Result<Self, Trouble> {
        let input = Input::read(file, cartridge::LARGEST)?;
        match input.bytes.len() {
            1..=cartridge::LARGEST => Ok(Kind::Cartridge(input)),
            _ => Err(Trouble::said(file, &cartridge::wrong_length(&input.length))),
        }
    }

    fn known_by_length(file: &Path, as_it_is: &str) -> Result<Self, Trouble> {
        let input = Input::read(file, cartridge::LARGEST)?;
        let kind = match input.bytes.len() {
            IMAGE_SIZE => Saved::judged(input).map(Kind::Image),
            MEMORY_SIZE if cartridge::says_four_banks(&input.bytes) => {
                Err("a dump, or a cartridge of four banks; --dump or --cartridge says which".into())
            }
            MEMORY_SIZE => Ok(Kind::Dump(input)),
            HEAD_SIZE if load(&input.bytes).is_ok() => {
                Err("a head, and a head has no memory".into())
            }
            length if cartridge::is_length(length) => Ok(Kind::Cartridge(input)),
            _ => Err(of_no_kind(&input, as_it_is)),
        };
        kind.map_err(|words| Trouble::said(file, &words))
    }

    /// Every byte of the file.
    pub fn bytes(&self) -> &[u8] {
        match self {
            Kind::Image(image) => &image.input.bytes,
            Kind::Dump(input) | Kind::Cartridge(input) => &input.bytes,
        }
    }

    /// The lines that are asked for, or else of an image some from PC and of all others all.
    pub fn text(
        &self,
        which: Option<Which>,
        bank: Option<usize>,
        edition: Edition,
    ) -> Result<String, String> {
        let unasked = match self {
            Kind::Image(_) => Which::Lines {
                from: None,
                count: ENOUGH,
            },
            _ => Which::All,
        };
        let asked = Asked {
            which: which.unwrap_or(unasked),
            edition,
        };
        match (self, bank) {
            (Kind::Cartridge(input), _) => Cartridge(&input.bytes).text(&asked, bank),
            (_, Some(_)) => Err(NO_BANKS.to_string()),
            (Kind::Dump(input), None) => Part::memory(&input.bytes, 0).text(&asked),
            (Kind::Image(image), None) => Part::memory(image.memory(), image.cpu.pc).text(&asked),
        }
    }

    /// The bytes from an address on that follow one another: to the end of the memory, of the
    /// cartridge or of one of its banks. Or the words for an address that is not there.
    pub fn stretch(&self, from: u16, bank: Option<usize>) -> Result<Stretch, String> {
        let memory = |start: usize| Stretch {
            place: start..start + MEMORY_SIZE,
            first: 0,
            whole: "the memory".to_string(),
            of_many: false,
        };
        let stretch = match (self, bank) {
            (Kind::Cartridge(input), _) => Cartridge(&input.bytes).stretch(from, bank)?,
            (_, Some(_)) => return Err(NO_BANKS.to_string()),
            (Kind::Dump(_), None) => memory(0),
            (Kind::Image(_), None) => memory(HEAD_SIZE),
        };
        stretch.from(from)
    }
}

const NO_BANKS: &str = "no cartridge, so it has no banks";

fn of_no_kind(input: &Input, as_it_is: &str) -> String {
    format!(
        "found {} bytes, wanted 65,559 for an image, 65,536 for a dump, or a cartridge of 1 to \
         32,768 or of whole banks of 16,384; {as_it_is} takes it as it is",
        input.length
    )
}
