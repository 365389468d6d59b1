use core::fmt::{self, Display, Formatter};
use core::str::FromStr;

use crate::link::Block;

/// The state of the processor, all but the memory. The default is the all-zero state: Off and
/// Running.
///
/// ```
/// use trnadulek::{Cpu, Ime, Mode};
///
/// let cpu = Cpu { pc: 0x0100, sp: 0xFFFE, ime: Ime::On, ..Cpu::default() };
/// assert_eq!(cpu.mode, Mode::Running);
/// ```
#[allow(missing_docs)] // A register's name says it all.
#[derive(Clone, Copy, PartialEq, Eq, Hash, Debug, Default)]
pub struct Cpu {
    pub a: u8,
    /// The flags: Z `$80`, N `$40`, H `$20`, C `$10`. A state with another bit set is refused.
    pub f: u8,
    pub b: u8,
    pub c: u8,
    pub d: u8,
    pub e: u8,
    pub h: u8,
    pub l: u8,
    pub sp: u16,
    pub pc: u16,
    pub ime: Ime,
    pub mode: Mode,
}

/// The interrupt switch. It is displayed as its name, and read from it, in capitals or not.
///
/// ```
/// use trnadulek::Ime;
///
/// assert_eq!(Ime::Arming.to_string(), "Arming");
/// assert_eq!("off".parse(), Ok(Ime::Off));
/// assert!("enabled".parse::<Ime>().is_err());
/// ```
#[derive(Clone, Copy, PartialEq, Eq, Hash, Debug, Default)]
pub enum Ime {
    /// No request is served.
    #[default]
    Off,
    /// On after the next instruction, unless that is DI.
    Arming,
    /// Where a request is pending, the next step is a dispatch.
    On,
}

/// What the processor does between two steps. It is displayed as its name, and read from it, in
/// capitals or not.
///
/// ```
/// use trnadulek::Mode;
///
/// assert_eq!(Mode::Halted.to_string(), "Halted");
/// assert_eq!("STOPPED".parse(), Ok(Mode::Stopped));
/// ```
#[derive(Clone, Copy, PartialEq, Eq, Hash, Debug, Default)]
pub enum Mode {
    /// Instruction after instruction.
    #[default]
    Running,
    /// The next instruction's first byte is read twice.
    Repeat,
    /// Idle until a request is pending.
    Halted,
    /// Every step is refused.
    Stopped,
}

impl Ime {
    /// Every position of the switch, in the order of the codes.
    pub const ALL: [Ime; 3] = [Ime::Off, Ime::Arming, Ime::On];

    fn name(self) -> &'static str {
        match self {
            Ime::Off => "Off",
            Ime::Arming => "Arming",
            Ime::On => "On",
        }
    }

    fn code(self) -> u8 {
        match self {
            Ime::Off => 0,
            Ime::Arming => 1,
            Ime::On => 2,
        }
    }

    fn from_code(code: u8) -> Self {
        match code {
            0 => Ime::Off,
            1 => Ime::Arming,
            _ => Ime::On,
        }
    }
}

impl Mode {
    /// Every mode, in the order of the codes.
    pub const ALL: [Mode; 4] = [Mode::Running, Mode::Repeat, Mode::Halted, Mode::Stopped];

    fn name(self) -> &'static str {
        match self {
            Mode::Running => "Running",
            Mode::Repeat => "Repeat",
            Mode::Halted => "Halted",
            Mode::Stopped => "Stopped",
        }
    }

    fn code(self) -> u8 {
        match self {
            Mode::Running => 0,
            Mode::Repeat => 1,
            Mode::Halted => 2,
            Mode::Stopped => 3,
        }
    }

    fn from_code(code: u8) -> Self {
        match code {
            0 => Mode::Running,
            1 => Mode::Repeat,
            2 => Mode::Halted,
            _ => Mode::Stopped,
        }
    }
}

impl Display for Ime {
    fn fmt(&self, out: &mut Formatter<'_>) -> fmt::Result {
        out.pad(self.name())
    }
}

impl Display for Mode {
    fn fmt(&self, out: &mut Formatter<'_>) -> fmt::Result {
        out.pad(self.name())
    }
}

impl FromStr for Ime {
    type Err = UnknownName;

    /// # Errors
    ///
    /// For any other text than a name.
    fn from_str(text: &str) -> Result<Self, UnknownName> {
        let named = |ime: &Ime| ime.name().eq_ignore_ascii_case(text);
        let found = Ime::ALL.into_iter().find(named);
        found.ok_or(UnknownName("Off, Arming or On"))
    }
}

impl FromStr for Mode {
    type Err = UnknownName;

    /// # Errors
    ///
    /// For any other text than a name.
    fn from_str(text: &str) -> Result<Self, UnknownName> {
        let named = |mode: &Mode| mode.name().eq_ignore_ascii_case(text);
        let found = Mode::ALL.into_iter().find(named);
        found.ok_or(UnknownName("Running, Repeat, Halted or Stopped"))
    }
}

/// A text that is no name of an [`Ime`], a [`Mode`] or an [`Edition`](crate::Edition). What is
/// displayed has the names.
///
/// ```
/// use trnadulek::Ime;
///
/// let error = "enabled".parse::<Ime>().unwrap_err();
/// assert_eq!(error.to_string(), "the name is not Off, Arming or On");
/// ```
#[derive(Clone, Copy, PartialEq, Eq, Hash, Debug)]
pub struct UnknownName(pub(crate) &'static str);

impl Display for UnknownName {
    fn fmt(&self, out: &mut Formatter<'_>) -> fmt::Result {
        write!(out, "the name is not {}", self.0)
    }
}

#[cfg(feature = "std")]
impl std::error::Error for UnknownName {}

/// The register pairs, the first register being the high byte.
///
/// ```
/// use trnadulek::Cpu;
///
/// let mut cpu = Cpu { h: 0xC0, l: 0x01, ..Cpu::default() };
/// assert_eq!(cpu.hl(), 0xC001);
/// cpu.set_de(0x1234);
/// assert_eq!((cpu.d, cpu.e), (0x12, 0x34));
/// ```
#[allow(missing_docs)] // A pair's name says it all.
impl Cpu {
    pub const fn af(&self) -> u16 {
        u16::from_be_bytes([self.a, self.f])
    }

    pub const fn bc(&self) -> u16 {
        u16::from_be_bytes([self.b, self.c])
    }

    pub const fn de(&self) -> u16 {
        u16::from_be_bytes([self.d, self.e])
    }

    pub const fn hl(&self) -> u16 {
        u16::from_be_bytes([self.h, self.l])
    }

    /// The low four bits go into F too, and a state that has one of them set is refused.
    pub fn set_af(&mut self, pair: u16) {
        [self.a, self.f] = pair.to_be_bytes();
    }

    pub fn set_bc(&mut self, pair: u16) {
        [self.b, self.c] = pair.to_be_bytes();
    }

    pub fn set_de(&mut self, pair: u16) {
        [self.d, self.e] = pair.to_be_bytes();
    }

    pub fn set_hl(&mut self, pair: u16) {
        [self.h, self.l] = pair.to_be_bytes();
    }
}

impl Cpu {
    pub(crate) fn block(self) -> Block {
        let [sp_high, sp_low] = self.sp.to_be_bytes();
        let [pc_high, pc_low] = self.pc.to_be_bytes();
        [
            self.a,
            self.f,
            self.b,
            self.c,
            self.d,
            self.e,
            self.h,
            self.l,
            sp_high,
            sp_low,
            pc_high,
            pc_low,
            self.ime.code(),
            self.mode.code(),
        ]
    }

    /// The state of a block that the core wrote: its codes are in range.
    pub(crate) fn from_block(block: Block) -> Self {
        let [a, f, b, c, d, e, h, l, sp_high, sp_low, pc_high, pc_low, ime, mode] = block;
        Cpu {
            a,
            f,
            b,
            c,
            d,
            e,
            h,
            l,
            sp: u16::from_be_bytes([sp_high, sp_low]),
            pc: u16::from_be_bytes([pc_high, pc_low]),
            ime: Ime::from_code(ime),
            mode: Mode::from_code(mode),
        }
    }
}
