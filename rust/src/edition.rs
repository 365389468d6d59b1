use core::fmt::{self, Display, Formatter};
use core::str::FromStr;

use crate::cpu::UnknownName;
use crate::refusal::Refusal;

/// How a listing spells eight opcodes; all others have one spelling. The default is the new one.
///
/// | Opcode | Old | New |
/// |---|---|---|
/// | `$22` | `LDI [HL],A` | `LD [HLI],A` |
/// | `$2A` | `LDI A,[HL]` | `LD A,[HLI]` |
/// | `$32` | `LDD [HL],A` | `LD [HLD],A` |
/// | `$3A` | `LDD A,[HL]` | `LD A,[HLD]` |
/// | `$E0 $80` | `LDIO [$FF80],A` | `LDH [$FF80],A` |
/// | `$F0 $80` | `LDIO A,[$FF80]` | `LDH A,[$FF80]` |
/// | `$E2` | `LDIO [C],A` | `LDH [C],A` |
/// | `$F2` | `LDIO A,[C]` | `LDH A,[C]` |
///
/// It is displayed as its name, and read from it, in capitals or not. A host that has the number
/// and not the name takes it by `try_from`:
///
/// ```
/// use trnadulek::{Edition, Refusal};
///
/// assert_eq!(Edition::default(), Edition::New);
/// assert_eq!("old".parse(), Ok(Edition::Old));
/// assert_eq!(Edition::Old.to_string(), "Old");
/// assert_eq!(Edition::try_from(Edition::Old.number()), Ok(Edition::Old));
/// assert_eq!(Edition::try_from(3), Err(Refusal::Edition));
/// ```
#[derive(Clone, Copy, PartialEq, Eq, Hash, Debug, Default)]
pub enum Edition {
    /// LDI, LDD and LDIO, as in the older wordings of the instruction reference.
    Old,
    /// LD with HLI and HLD, and LDH, as in the newest.
    #[default]
    New,
}

impl Edition {
    /// Both editions, in the order of the numbers.
    pub const ALL: [Edition; 2] = [Edition::Old, Edition::New];

    /// The number that the core has for it.
    pub const fn number(self) -> u32 {
        match self {
            Edition::Old => 1,
            Edition::New => 2,
        }
    }

    fn name(self) -> &'static str {
        match self {
            Edition::Old => "Old",
            Edition::New => "New",
        }
    }
}

impl Display for Edition {
    fn fmt(&self, out: &mut Formatter<'_>) -> fmt::Result {
        out.pad(self.name())
    }
}

impl FromStr for Edition {
    type Err = UnknownName;

    /// # Errors
    ///
    /// For any other text than a name.
    fn from_str(text: &str) -> Result<Self, UnknownName> {
        let named = |edition: &Edition| edition.name().eq_ignore_ascii_case(text);
        let found = Edition::ALL.into_iter().find(named);
        found.ok_or(UnknownName("Old or New"))
    }
}

impl TryFrom<u32> for Edition {
    type Error = Refusal;

    /// # Errors
    ///
    /// [`Refusal::Edition`] for any number but 1 and 2, as the core refuses it.
    fn try_from(number: u32) -> Result<Self, Refusal> {
        let mut all = Edition::ALL.into_iter();
        all.find(|edition| edition.number() == number)
            .ok_or(Refusal::Edition)
    }
}
