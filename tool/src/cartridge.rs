//! Cartridges bank by bank, where there are more banks than the processor sees.

use crate::arguments::Given;
use crate::kind::Stretch;
use crate::listing::{Asked, Part, Which};
use crate::trouble::Trouble;
use crate::{numbers, words};

const BANK: usize = 16_384;

/// The processor sees two banks at a time.
const TWO_BANKS: usize = 2 * BANK;

/// Where it sees every bank but bank 0.
const SWITCHED: u16 = 0x4000;

/// No cartridge of these consoles has a higher one.
const LAST_BANK: usize = 511;

pub const LARGEST: usize = (LAST_BANK + 1) * BANK;

pub struct Cartridge<'a>(pub &'a [u8]);

impl Cartridge<'_> {
    /// The lines, or the words for what is not there.
    pub fn text(&self, asked: &Asked, bank: Option<usize>) -> Result<String, String> {
        match (bank, &asked.which) {
            (Some(number), _) => self.bank(number)?.text(asked),
            (None, _) if self.0.len() <= TWO_BANKS => Part::new(self.0, 0).text(asked),
            (None, Which::All) => self.bank_by_bank(asked),
            (None, which) => {
                self.keep_to_bank_0(highest(which))?;
                self.bank(0)?.text(asked)
            }
        }
    }

    /// The bytes that an address is to be one of: all of them, or those of one bank.
    pub fn stretch(&self, address: u16, bank: Option<usize>) -> Result<Stretch, String> {
        if bank.is_none() && self.0.len() <= TWO_BANKS {
            return Ok(Stretch {
                place: 0..self.0.len(),
                first: 0,
                whole: "the cartridge".to_string(),
                of_many: false,
            });
        }
        if bank.is_none() {
            self.keep_to_bank_0(Some(usize::from(address)))?;
        }
        let number = bank.unwrap_or(0);
        let part = self.bank(number)?;
        let start = number * BANK;
        Ok(Stretch {
            place: start..start + part.length(),
            first: part.first(),
            whole: format!("bank {number}"),
            of_many: true,
        })
    }

    fn last_bank(&self) -> usize {
        self.0.chunks(BANK).count() - 1
    }

    fn bank(&self, number: usize) -> Result<Part<'_>, String> {
        let bytes = self.0.chunks(BANK).nth(number);
        let first = if number == 0 { 0 } else { SWITCHED };
        bytes.map(|bytes| Part::new(bytes, first)).ok_or_else(|| {
            let last = self.last_bank();
            format!("there is no bank {number}, only banks 0 to {last}")
        })
    }

    /// Each whole under a heading, with an empty line between them.
    fn bank_by_bank(&self, all: &Asked) -> Result<String, String> {
        let banks = (0..=self.last_bank()).map(|number| {
            let bank = self.bank(number)?;
            let lines = bank.text(all)?;
            Ok(format!("bank {number}: {}\n{lines}", bank.place()))
        });
        let banks: Vec<String> = banks.collect::<Result<_, String>>()?;
        Ok(banks.join("\n"))
    }

    /// An address above bank 0 is one in each of the others.
    fn keep_to_bank_0(&self, asked: Option<usize>) -> Result<(), String> {
        match asked {
            Some(address) if address >= usize::from(SWITCHED) => Err(format!(
                "${address:04X} is not in bank 0; --bank says which of banks 1 to {} is meant",
                self.last_bank()
            )),
            _ => Ok(()),
        }
    }
}

/// The highest address that is asked for.
fn highest(which: &Which) -> Option<usize> {
    match which {
        Which::All => None,
        Which::Lines { from, .. } => from.map(usize::from),
        Which::Bytes(ranges) => ranges.iter().map(|range| range.end - 1).max(),
    }
}

/// The bank that an option names.
pub fn asked_bank(given: &Given) -> Result<Option<usize>, Trouble> {
    let number = given.value("--bank");
    number
        .map(|value| numbers::count("--bank", value, 0..=LAST_BANK))
        .transpose()
}

/// Whether the length is one that cartridges have: up to two banks of any length, or whole banks.
pub fn is_length(length: usize) -> bool {
    let whole_banks = length <= LARGEST && length % BANK == 0;
    length > 0 && (length <= TWO_BANKS || whole_banks)
}

/// Whether the header of a cartridge says four banks, which have as many bytes as a memory: a console
/// takes no header whose own sum is wrong.
pub fn says_four_banks(bytes: &[u8]) -> bool {
    const SIZE: usize = 0x0148;
    const FOUR_BANKS: u8 = 1;
    const SUM: usize = 0x014D;
    let less = |sum: u8, byte: &u8| sum.wrapping_sub(*byte).wrapping_sub(1);
    let sum = bytes[0x0134..SUM].iter().fold(0, less);
    bytes[SIZE] == FOUR_BANKS && bytes[SUM] == sum
}

/// What was found where a cartridge was wanted.
pub fn wrong_length(found: &str) -> String {
    let most = words::grouped(LARGEST as u64);
    format!("found {found} bytes, wanted a cartridge of 1 to {most}")
}
