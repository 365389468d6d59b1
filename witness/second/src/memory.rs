//! The flat memory and every way in which a step touches it.

use crate::state::{Mode, State};

/// Bytes of memory.
pub const SIZE: usize = 65_536;

/// The address of the interrupt requests.
pub const IF: u16 = 0xFF0F;

/// The address of the interrupt enables.
pub const IE: u16 = 0xFFFF;

pub type Memory = [u8; SIZE];

/// A state in the middle of a step, with the memory it works on.
pub struct Machine<'a> {
    pub r: State,
    memory: &'a mut Memory,
    /// PC as the step began: where the first byte of an instruction is read from.
    pub start: u16,
    /// Cycles on top of the untaken cost: a condition was met.
    pub extra: u8,
}

impl<'a> Machine<'a> {
    pub fn new(r: State, memory: &'a mut Memory) -> Self {
        Machine {
            r,
            memory,
            start: r.pc,
            extra: 0,
        }
    }

    /// The one read of a byte.
    pub fn read(&self, address: u16) -> u8 {
        self.memory[usize::from(address)]
    }

    /// The one store of a byte.
    pub fn store(&mut self, address: u16, byte: u8) {
        self.memory[usize::from(address)] = byte;
    }

    /// Stores a word, low byte first.
    pub fn store_word(&mut self, address: u16, word: u16) {
        let [low, high] = word.to_le_bytes();
        self.store(address, low);
        self.store(address.wrapping_add(1), high);
    }

    /// The byte that HL points to.
    pub fn at_hl(&self) -> u8 {
        self.read(self.r.hl())
    }

    /// Stores a byte where HL points to.
    pub fn store_at_hl(&mut self, byte: u8) {
        self.store(self.r.hl(), byte);
    }

    /// Replaces the byte at HL by what an operation makes of it.
    pub fn change_at_hl(&mut self, operation: fn(&mut State, u8) -> u8) {
        let byte = self.at_hl();
        let changed = operation(&mut self.r, byte);
        self.store_at_hl(changed);
    }

    /// HL as it is, leaving it one higher.
    pub fn hl_then_up(&mut self) -> u16 {
        let address = self.r.hl();
        self.r.set_hl(address.wrapping_add(1));
        address
    }

    /// HL as it is, leaving it one lower.
    pub fn hl_then_down(&mut self) -> u16 {
        let address = self.r.hl();
        self.r.set_hl(address.wrapping_sub(1));
        address
    }

    pub fn push(&mut self, word: u16) {
        let [low, high] = word.to_le_bytes();
        self.push_byte(high);
        self.push_byte(low);
    }

    /// Half of a push: SP one lower, and the byte stored there.
    pub fn push_byte(&mut self, byte: u8) {
        self.r.sp = self.r.sp.wrapping_sub(1);
        self.store(self.r.sp, byte);
    }

    pub fn pop(&mut self) -> u16 {
        let low = self.read(self.r.sp);
        self.r.sp = self.r.sp.wrapping_add(1);
        let high = self.read(self.r.sp);
        self.r.sp = self.r.sp.wrapping_add(1);
        u16::from_le_bytes([low, high])
    }

    /// Requests that are enabled.
    pub fn pending(&self) -> u8 {
        self.read(IE) & self.read(IF) & 0x1F
    }

    /// Reads the first byte of an instruction. In Repeat, PC stays.
    pub fn fetch_first(&mut self) -> u8 {
        let byte = self.read(self.r.pc);
        if self.r.mode != Mode::Repeat {
            self.r.pc = self.r.pc.wrapping_add(1);
        }
        byte
    }

    /// Reads a further byte of an instruction.
    pub fn fetch(&mut self) -> u8 {
        let byte = self.read(self.r.pc);
        self.r.pc = self.r.pc.wrapping_add(1);
        byte
    }
}
