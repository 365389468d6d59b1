//! Jumps, calls and returns, with the cycles that a met condition adds.

use crate::memory::Machine;
use crate::state::Ime;

impl Machine<'_> {
    /// Jumps by a signed byte from the address after the instruction.
    pub fn jr(&mut self, offset: u8) {
        self.r.pc = self.r.pc.wrapping_add(i16::from(offset as i8) as u16);
    }

    pub fn jr_if(&mut self, condition: bool, offset: u8) {
        if condition {
            self.jr(offset);
            self.extra = 1;
        }
    }

    pub fn jp_if(&mut self, condition: bool, address: u16) {
        if condition {
            self.r.pc = address;
            self.extra = 1;
        }
    }

    pub fn call(&mut self, address: u16) {
        self.push(self.r.pc);
        self.r.pc = address;
    }

    pub fn call_if(&mut self, condition: bool, address: u16) {
        if condition {
            self.call(address);
            self.extra = 3;
        }
    }

    pub fn ret(&mut self) {
        self.r.pc = self.pop();
    }

    pub fn ret_if(&mut self, condition: bool) {
        if condition {
            self.ret();
            self.extra = 3;
        }
    }

    pub fn reti(&mut self) {
        self.ret();
        self.r.ime = Ime::On;
    }
}
