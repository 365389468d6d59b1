//! Arithmetic, logic, rotates and their flags.

use crate::state::State;

pub const Z: u8 = 0x80;
pub const N: u8 = 0x40;
pub const H: u8 = 0x20;
pub const C: u8 = 0x10;

fn when(condition: bool, flag: u8) -> u8 {
    if condition {
        flag
    } else {
        0
    }
}

/// Flags.
impl State {
    pub fn zero(&self) -> bool {
        self.f & Z != 0
    }

    pub fn carry(&self) -> bool {
        self.f & C != 0
    }

    fn has(&self, flag: u8) -> bool {
        self.f & flag != 0
    }
}

/// The eight byte operations on A.
impl State {
    pub fn add(&mut self, operand: u8) {
        self.add_with(operand, 0);
    }

    pub fn adc(&mut self, operand: u8) {
        self.add_with(operand, u8::from(self.carry()));
    }

    pub fn sub(&mut self, operand: u8) {
        self.a = self.difference(operand, 0);
    }

    pub fn sbc(&mut self, operand: u8) {
        self.a = self.difference(operand, u8::from(self.carry()));
    }

    pub fn cp(&mut self, operand: u8) {
        self.difference(operand, 0);
    }

    pub fn and(&mut self, operand: u8) {
        self.a &= operand;
        self.f = when(self.a == 0, Z) | H;
    }

    pub fn xor(&mut self, operand: u8) {
        self.a ^= operand;
        self.f = when(self.a == 0, Z);
    }

    pub fn or(&mut self, operand: u8) {
        self.a |= operand;
        self.f = when(self.a == 0, Z);
    }

    fn add_with(&mut self, operand: u8, carry: u8) {
        let half = (self.a & 0x0F) + (operand & 0x0F) + carry;
        let full = u16::from(self.a) + u16::from(operand) + u16::from(carry);
        self.a = full as u8;
        self.f = when(self.a == 0, Z) | when(half > 0x0F, H) | when(full > 0xFF, C);
    }

    fn difference(&mut self, operand: u8, carry: u8) -> u8 {
        let borrows_half = (operand & 0x0F) + carry > (self.a & 0x0F);
        let borrows_full = u16::from(operand) + u16::from(carry) > u16::from(self.a);
        let result = self.a.wrapping_sub(operand).wrapping_sub(carry);
        self.f = when(result == 0, Z) | N | when(borrows_half, H) | when(borrows_full, C);
        result
    }
}

/// Counting, decimal adjustment and the operations on flags.
impl State {
    pub fn inc(&mut self, byte: u8) -> u8 {
        let result = byte.wrapping_add(1);
        self.f = (self.f & C) | when(result == 0, Z) | when(byte & 0x0F == 0x0F, H);
        result
    }

    pub fn dec(&mut self, byte: u8) -> u8 {
        let result = byte.wrapping_sub(1);
        self.f = (self.f & C) | when(result == 0, Z) | N | when(byte & 0x0F == 0, H);
        result
    }

    pub fn daa(&mut self) {
        if self.has(N) {
            self.adjust_after_subtraction();
        } else {
            self.adjust_after_addition();
        }
        self.f = (self.f & (N | C)) | when(self.a == 0, Z);
    }

    fn adjust_after_subtraction(&mut self) {
        let low = when(self.has(H), 0x06);
        let high = when(self.has(C), 0x60);
        self.a = self.a.wrapping_sub(low + high);
    }

    fn adjust_after_addition(&mut self) {
        let low = when(self.has(H) || (self.a & 0x0F) > 0x09, 0x06);
        let high = when(self.has(C) || self.a > 0x99, 0x60);
        if high != 0 {
            self.f |= C;
        }
        self.a = self.a.wrapping_add(low + high);
    }

    pub fn cpl(&mut self) {
        self.a = !self.a;
        self.f |= N | H;
    }

    pub fn scf(&mut self) {
        self.f = (self.f & Z) | C;
    }

    pub fn ccf(&mut self) {
        self.f = (self.f & Z) | when(!self.carry(), C);
    }
}

/// Words.
impl State {
    pub fn add_hl(&mut self, word: u16) {
        let hl = self.hl();
        let half = (hl & 0x0FFF) + (word & 0x0FFF) > 0x0FFF;
        let (sum, full) = hl.overflowing_add(word);
        self.set_hl(sum);
        self.f = (self.f & Z) | when(half, H) | when(full, C);
    }

    /// SP plus a signed byte; H and C come from the unsigned low bytes.
    pub fn sp_plus(&mut self, offset: u8) -> u16 {
        let low = self.sp as u8;
        let half = (low & 0x0F) + (offset & 0x0F) > 0x0F;
        let (_, full) = low.overflowing_add(offset);
        self.f = when(half, H) | when(full, C);
        self.sp.wrapping_add(i16::from(offset as i8) as u16)
    }
}

/// Rotates and shifts: each gives the new byte and sets all four flags.
impl State {
    pub fn rlc(&mut self, byte: u8) -> u8 {
        self.shifted(byte.rotate_left(1), byte & 0x80)
    }

    pub fn rrc(&mut self, byte: u8) -> u8 {
        self.shifted(byte.rotate_right(1), byte & 0x01)
    }

    pub fn rl(&mut self, byte: u8) -> u8 {
        self.shifted((byte << 1) | when(self.carry(), 0x01), byte & 0x80)
    }

    pub fn rr(&mut self, byte: u8) -> u8 {
        self.shifted((byte >> 1) | when(self.carry(), 0x80), byte & 0x01)
    }

    pub fn sla(&mut self, byte: u8) -> u8 {
        self.shifted(byte << 1, byte & 0x80)
    }

    pub fn sra(&mut self, byte: u8) -> u8 {
        self.shifted((byte >> 1) | (byte & 0x80), byte & 0x01)
    }

    pub fn srl(&mut self, byte: u8) -> u8 {
        self.shifted(byte >> 1, byte & 0x01)
    }

    pub fn swap(&mut self, byte: u8) -> u8 {
        self.shifted(byte.rotate_left(4), 0)
    }

    fn shifted(&mut self, result: u8, carried_out: u8) -> u8 {
        self.f = when(result == 0, Z) | when(carried_out != 0, C);
        result
    }

    pub fn rlca(&mut self) {
        self.a = self.rlc(self.a);
        self.f &= !Z;
    }

    pub fn rrca(&mut self) {
        self.a = self.rrc(self.a);
        self.f &= !Z;
    }

    pub fn rla(&mut self) {
        self.a = self.rl(self.a);
        self.f &= !Z;
    }

    pub fn rra(&mut self) {
        self.a = self.rr(self.a);
        self.f &= !Z;
    }

    /// Tests one bit: Z says that it is 0.
    pub fn bit(&mut self, index: u8, byte: u8) {
        self.f = (self.f & C) | when((byte >> index) & 1 == 0, Z) | H;
    }
}

/// The byte with one bit cleared.
pub fn res(index: u8, byte: u8) -> u8 {
    byte & !(1 << index)
}

/// The byte with one bit set.
pub fn set(index: u8, byte: u8) -> u8 {
    byte | (1 << index)
}
