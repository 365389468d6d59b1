//! The state of the processor: registers, interrupt switch and mode.

/// The interrupt switch.
#[derive(Clone, Copy, PartialEq, Eq, Debug, Default)]
pub enum Ime {
    #[default]
    Off,
    Arming,
    On,
}

/// What the processor is doing between two steps.
#[derive(Clone, Copy, PartialEq, Eq, Debug, Default)]
pub enum Mode {
    #[default]
    Running,
    Repeat,
    Halted,
    Stopped,
}

/// All of the processor except the memory. The default is the all-zero state.
#[derive(Clone, Copy, PartialEq, Eq, Debug, Default)]
pub struct State {
    pub a: u8,
    pub f: u8,
    pub b: u8,
    pub c: u8,
    pub d: u8,
    pub e: u8,
    pub h: u8,
    pub l: u8,
    pub sp: u16,
    pub pc: u16,
    pub ime: Ime,
    pub mode: Mode,
}

impl Ime {
    /// The number that the saved form uses.
    pub fn code(self) -> u8 {
        match self {
            Ime::Off => 0,
            Ime::Arming => 1,
            Ime::On => 2,
        }
    }

    /// The switch for a number of the saved form.
    pub fn from_code(code: u8) -> Option<Self> {
        match code {
            0 => Some(Ime::Off),
            1 => Some(Ime::Arming),
            2 => Some(Ime::On),
            _ => None,
        }
    }
}

impl Mode {
    /// The number that the saved form uses.
    pub fn code(self) -> u8 {
        match self {
            Mode::Running => 0,
            Mode::Repeat => 1,
            Mode::Halted => 2,
            Mode::Stopped => 3,
        }
    }

    /// The mode for a number of the saved form.
    pub fn from_code(code: u8) -> Option<Self> {
        match code {
            0 => Some(Mode::Running),
            1 => Some(Mode::Repeat),
            2 => Some(Mode::Halted),
            3 => Some(Mode::Stopped),
            _ => None,
        }
    }
}

impl State {
    pub fn af(&self) -> u16 {
        u16::from_be_bytes([self.a, self.f])
    }

    pub fn bc(&self) -> u16 {
        u16::from_be_bytes([self.b, self.c])
    }

    pub fn de(&self) -> u16 {
        u16::from_be_bytes([self.d, self.e])
    }

    pub fn hl(&self) -> u16 {
        u16::from_be_bytes([self.h, self.l])
    }

    /// Sets A and F as POP AF does: the low four bits of F are dropped.
    pub fn pop_af(&mut self, word: u16) {
        let [high, low] = word.to_be_bytes();
        self.a = high;
        self.f = low & 0xF0;
    }

    pub fn set_bc(&mut self, word: u16) {
        [self.b, self.c] = word.to_be_bytes();
    }

    pub fn set_de(&mut self, word: u16) {
        [self.d, self.e] = word.to_be_bytes();
    }

    pub fn set_hl(&mut self, word: u16) {
        [self.h, self.l] = word.to_be_bytes();
    }

    /// Whether F is one that the processor can have.
    pub fn flags_are_valid(&self) -> bool {
        self.f & 0x0F == 0
    }
}

/// AF to PC in hexadecimal, then the codes of IME and mode.
impl std::fmt::Display for State {
    fn fmt(&self, out: &mut std::fmt::Formatter) -> std::fmt::Result {
        for word in [self.af(), self.bc(), self.de(), self.hl(), self.sp, self.pc] {
            write!(out, "{word:04X} ")?;
        }
        write!(out, "{} {}", self.ime.code(), self.mode.code())
    }
}
