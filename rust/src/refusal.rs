use core::fmt::{self, Display, Formatter};
use core::str;

use crate::link;

/// Why something was refused. The core's own number for each is [`Refusal::number`]; its words are
/// what is displayed.
///
/// ```
/// use trnadulek::{load, Refusal};
///
/// let refusal = load(&[1, 2, 3]).unwrap_err();
/// assert_eq!(refusal, Refusal::Length);
/// assert_eq!(refusal.number(), 6);
/// assert_eq!(refusal.to_string(), "head, image or output slice of wrong length");
/// ```
#[derive(Clone, Copy, PartialEq, Eq, Hash, Debug)]
#[non_exhaustive]
pub enum Refusal {
    /// 1: memory length is not 65,536.
    MemoryLength,
    /// 2: low four bits of F are not 0.
    FlagBits,
    /// 3: mode is Stopped when a step is due.
    Stopped,
    /// 4: the step would run an undefined opcode.
    UndefinedOpcode,
    /// 5: budget above 1,048,576.
    Budget,
    /// 6: head, image or output slice of wrong length.
    Length,
    /// 7: version byte is not 1.
    Version,
    /// 8: a block length is not 14, or not 65,536.
    BlockLength,
    /// 9: IME code above 2, or mode code above 3.
    StateCode,
    /// 10: output too short.
    Room,
    /// 11: edition number is neither 1 nor 2.
    Edition,
    /// 12: a line of no such form.
    Line,
    /// 13: nesting deeper than 16.
    Nesting,
    /// 14: number or value out of range.
    Range,
}

/// No words are longer.
const LONGEST_WORDS: usize = 43;

impl Refusal {
    /// Every refusal, in the order of the numbers.
    pub const ALL: [Refusal; 14] = [
        Refusal::MemoryLength,
        Refusal::FlagBits,
        Refusal::Stopped,
        Refusal::UndefinedOpcode,
        Refusal::Budget,
        Refusal::Length,
        Refusal::Version,
        Refusal::BlockLength,
        Refusal::StateCode,
        Refusal::Room,
        Refusal::Edition,
        Refusal::Line,
        Refusal::Nesting,
        Refusal::Range,
    ];

    /// The number that the core answers for it.
    pub const fn number(self) -> u8 {
        match self {
            Refusal::MemoryLength => 1,
            Refusal::FlagBits => 2,
            Refusal::Stopped => 3,
            Refusal::UndefinedOpcode => 4,
            Refusal::Budget => 5,
            Refusal::Length => 6,
            Refusal::Version => 7,
            Refusal::BlockLength => 8,
            Refusal::StateCode => 9,
            Refusal::Room => 10,
            Refusal::Edition => 11,
            Refusal::Line => 12,
            Refusal::Nesting => 13,
            Refusal::Range => 14,
        }
    }

    /// What an answer of the core stands for: 0 is done.
    pub(crate) fn judge(code: u8) -> Result<(), Refusal> {
        if code == 0 {
            return Ok(());
        }
        Err(Refusal::try_from(code).expect("a library of this version answers no other number"))
    }
}

impl Display for Refusal {
    fn fmt(&self, out: &mut Formatter<'_>) -> fmt::Result {
        let mut words = [0; LONGEST_WORDS];
        let length = link::words(self.number(), &mut words);
        let written = words
            .get(..length)
            .and_then(|words| str::from_utf8(words).ok());
        out.pad(written.ok_or(fmt::Error)?)
    }
}

#[cfg(feature = "std")]
impl std::error::Error for Refusal {}

/// The refusal of a number.
///
/// ```
/// use trnadulek::Refusal;
///
/// assert_eq!(Refusal::try_from(4), Ok(Refusal::UndefinedOpcode));
/// assert!(Refusal::try_from(0).is_err());
/// ```
impl TryFrom<u8> for Refusal {
    type Error = UnknownNumber;

    /// # Errors
    ///
    /// For a number that stands for no refusal: 0, which is done, and those above 14.
    fn try_from(number: u8) -> Result<Self, UnknownNumber> {
        let mut all = Refusal::ALL.into_iter();
        all.find(|refusal| refusal.number() == number)
            .ok_or(UnknownNumber(number))
    }
}

/// A number that stands for no refusal.
#[derive(Clone, Copy, PartialEq, Eq, Hash, Debug)]
pub struct UnknownNumber(pub u8);

impl Display for UnknownNumber {
    fn fmt(&self, out: &mut Formatter<'_>) -> fmt::Result {
        write!(out, "no refusal has the number {}", self.0)
    }
}

#[cfg(feature = "std")]
impl std::error::Error for UnknownNumber {}
