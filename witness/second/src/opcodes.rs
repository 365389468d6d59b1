//! The opcode bytes without a prefix, one case for each.

use crate::memory::Machine;
use crate::state::{Ime, Mode, State};

/// Runs the instruction of an opcode byte, with PC already past its bytes and
/// the constant that followed it. Gives false, having done nothing, for a byte
/// that has no instruction ($CB has none of its own).
pub fn execute(m: &mut Machine, opcode: u8, n16: u16) -> bool {
    let n8 = n16 as u8;
    match opcode {
        0x00 => {}                                    // NOP
        0x01 => m.r.set_bc(n16),                      // LD BC,n16
        0x02 => m.store(m.r.bc(), m.r.a),             // LD [BC],A
        0x03 => m.r.set_bc(m.r.bc().wrapping_add(1)), // INC BC
        0x04 => m.r.b = m.r.inc(m.r.b),               // INC B
        0x05 => m.r.b = m.r.dec(m.r.b),               // DEC B
        0x06 => m.r.b = n8,                           // LD B,n8
        0x07 => m.r.rlca(),                           // RLCA
        0x08 => m.store_word(n16, m.r.sp),            // LD [n16],SP
        0x09 => m.r.add_hl(m.r.bc()),                 // ADD HL,BC
        0x0A => m.r.a = m.read(m.r.bc()),             // LD A,[BC]
        0x0B => m.r.set_bc(m.r.bc().wrapping_sub(1)), // DEC BC
        0x0C => m.r.c = m.r.inc(m.r.c),               // INC C
        0x0D => m.r.c = m.r.dec(m.r.c),               // DEC C
        0x0E => m.r.c = n8,                           // LD C,n8
        0x0F => m.r.rrca(),                           // RRCA

        0x10 => m.r.mode = Mode::Stopped,             // STOP
        0x11 => m.r.set_de(n16),                      // LD DE,n16
        0x12 => m.store(m.r.de(), m.r.a),             // LD [DE],A
        0x13 => m.r.set_de(m.r.de().wrapping_add(1)), // INC DE
        0x14 => m.r.d = m.r.inc(m.r.d),               // INC D
        0x15 => m.r.d = m.r.dec(m.r.d),               // DEC D
        0x16 => m.r.d = n8,                           // LD D,n8
        0x17 => m.r.rla(),                            // RLA
        0x18 => m.jr(n8),                             // JR
        0x19 => m.r.add_hl(m.r.de()),                 // ADD HL,DE
        0x1A => m.r.a = m.read(m.r.de()),             // LD A,[DE]
        0x1B => m.r.set_de(m.r.de().wrapping_sub(1)), // DEC DE
        0x1C => m.r.e = m.r.inc(m.r.e),               // INC E
        0x1D => m.r.e = m.r.dec(m.r.e),               // DEC E
        0x1E => m.r.e = n8,                           // LD E,n8
        0x1F => m.r.rra(),                            // RRA

        0x20 => m.jr_if(!m.r.zero(), n8),             // JR NZ
        0x21 => m.r.set_hl(n16),                      // LD HL,n16
        0x22 => store_up(m),                          // LD [HLI],A
        0x23 => m.r.set_hl(m.r.hl().wrapping_add(1)), // INC HL
        0x24 => m.r.h = m.r.inc(m.r.h),               // INC H
        0x25 => m.r.h = m.r.dec(m.r.h),               // DEC H
        0x26 => m.r.h = n8,                           // LD H,n8
        0x27 => m.r.daa(),                            // DAA
        0x28 => m.jr_if(m.r.zero(), n8),              // JR Z
        0x29 => m.r.add_hl(m.r.hl()),                 // ADD HL,HL
        0x2A => load_up(m),                           // LD A,[HLI]
        0x2B => m.r.set_hl(m.r.hl().wrapping_sub(1)), // DEC HL
        0x2C => m.r.l = m.r.inc(m.r.l),               // INC L
        0x2D => m.r.l = m.r.dec(m.r.l),               // DEC L
        0x2E => m.r.l = n8,                           // LD L,n8
        0x2F => m.r.cpl(),                            // CPL

        0x30 => m.jr_if(!m.r.carry(), n8),       // JR NC
        0x31 => m.r.sp = n16,                    // LD SP,n16
        0x32 => store_down(m),                   // LD [HLD],A
        0x33 => m.r.sp = m.r.sp.wrapping_add(1), // INC SP
        0x34 => m.change_at_hl(State::inc),      // INC [HL]
        0x35 => m.change_at_hl(State::dec),      // DEC [HL]
        0x36 => m.store_at_hl(n8),               // LD [HL],n8
        0x37 => m.r.scf(),                       // SCF
        0x38 => m.jr_if(m.r.carry(), n8),        // JR C
        0x39 => m.r.add_hl(m.r.sp),              // ADD HL,SP
        0x3A => load_down(m),                    // LD A,[HLD]
        0x3B => m.r.sp = m.r.sp.wrapping_sub(1), // DEC SP
        0x3C => m.r.a = m.r.inc(m.r.a),          // INC A
        0x3D => m.r.a = m.r.dec(m.r.a),          // DEC A
        0x3E => m.r.a = n8,                      // LD A,n8
        0x3F => m.r.ccf(),                       // CCF

        0x40 => {}                 // LD B,B
        0x41 => m.r.b = m.r.c,     // LD B,C
        0x42 => m.r.b = m.r.d,     // LD B,D
        0x43 => m.r.b = m.r.e,     // LD B,E
        0x44 => m.r.b = m.r.h,     // LD B,H
        0x45 => m.r.b = m.r.l,     // LD B,L
        0x46 => m.r.b = m.at_hl(), // LD B,[HL]
        0x47 => m.r.b = m.r.a,     // LD B,A
        0x48 => m.r.c = m.r.b,     // LD C,B
        0x49 => {}                 // LD C,C
        0x4A => m.r.c = m.r.d,     // LD C,D
        0x4B => m.r.c = m.r.e,     // LD C,E
        0x4C => m.r.c = m.r.h,     // LD C,H
        0x4D => m.r.c = m.r.l,     // LD C,L
        0x4E => m.r.c = m.at_hl(), // LD C,[HL]
        0x4F => m.r.c = m.r.a,     // LD C,A

        0x50 => m.r.d = m.r.b,     // LD D,B
        0x51 => m.r.d = m.r.c,     // LD D,C
        0x52 => {}                 // LD D,D
        0x53 => m.r.d = m.r.e,     // LD D,E
        0x54 => m.r.d = m.r.h,     // LD D,H
        0x55 => m.r.d = m.r.l,     // LD D,L
        0x56 => m.r.d = m.at_hl(), // LD D,[HL]
        0x57 => m.r.d = m.r.a,     // LD D,A
        0x58 => m.r.e = m.r.b,     // LD E,B
        0x59 => m.r.e = m.r.c,     // LD E,C
        0x5A => m.r.e = m.r.d,     // LD E,D
        0x5B => {}                 // LD E,E
        0x5C => m.r.e = m.r.h,     // LD E,H
        0x5D => m.r.e = m.r.l,     // LD E,L
        0x5E => m.r.e = m.at_hl(), // LD E,[HL]
        0x5F => m.r.e = m.r.a,     // LD E,A

        0x60 => m.r.h = m.r.b,     // LD H,B
        0x61 => m.r.h = m.r.c,     // LD H,C
        0x62 => m.r.h = m.r.d,     // LD H,D
        0x63 => m.r.h = m.r.e,     // LD H,E
        0x64 => {}                 // LD H,H
        0x65 => m.r.h = m.r.l,     // LD H,L
        0x66 => m.r.h = m.at_hl(), // LD H,[HL]
        0x67 => m.r.h = m.r.a,     // LD H,A
        0x68 => m.r.l = m.r.b,     // LD L,B
        0x69 => m.r.l = m.r.c,     // LD L,C
        0x6A => m.r.l = m.r.d,     // LD L,D
        0x6B => m.r.l = m.r.e,     // LD L,E
        0x6C => m.r.l = m.r.h,     // LD L,H
        0x6D => {}                 // LD L,L
        0x6E => m.r.l = m.at_hl(), // LD L,[HL]
        0x6F => m.r.l = m.r.a,     // LD L,A

        0x70 => m.store_at_hl(m.r.b), // LD [HL],B
        0x71 => m.store_at_hl(m.r.c), // LD [HL],C
        0x72 => m.store_at_hl(m.r.d), // LD [HL],D
        0x73 => m.store_at_hl(m.r.e), // LD [HL],E
        0x74 => m.store_at_hl(m.r.h), // LD [HL],H
        0x75 => m.store_at_hl(m.r.l), // LD [HL],L
        0x76 => halt(m),              // HALT
        0x77 => m.store_at_hl(m.r.a), // LD [HL],A
        0x78 => m.r.a = m.r.b,        // LD A,B
        0x79 => m.r.a = m.r.c,        // LD A,C
        0x7A => m.r.a = m.r.d,        // LD A,D
        0x7B => m.r.a = m.r.e,        // LD A,E
        0x7C => m.r.a = m.r.h,        // LD A,H
        0x7D => m.r.a = m.r.l,        // LD A,L
        0x7E => m.r.a = m.at_hl(),    // LD A,[HL]
        0x7F => {}                    // LD A,A

        0x80 => m.r.add(m.r.b),     // ADD A,B
        0x81 => m.r.add(m.r.c),     // ADD A,C
        0x82 => m.r.add(m.r.d),     // ADD A,D
        0x83 => m.r.add(m.r.e),     // ADD A,E
        0x84 => m.r.add(m.r.h),     // ADD A,H
        0x85 => m.r.add(m.r.l),     // ADD A,L
        0x86 => m.r.add(m.at_hl()), // ADD A,[HL]
        0x87 => m.r.add(m.r.a),     // ADD A,A
        0x88 => m.r.adc(m.r.b),     // ADC A,B
        0x89 => m.r.adc(m.r.c),     // ADC A,C
        0x8A => m.r.adc(m.r.d),     // ADC A,D
        0x8B => m.r.adc(m.r.e),     // ADC A,E
        0x8C => m.r.adc(m.r.h),     // ADC A,H
        0x8D => m.r.adc(m.r.l),     // ADC A,L
        0x8E => m.r.adc(m.at_hl()), // ADC A,[HL]
        0x8F => m.r.adc(m.r.a),     // ADC A,A

        0x90 => m.r.sub(m.r.b),     // SUB A,B
        0x91 => m.r.sub(m.r.c),     // SUB A,C
        0x92 => m.r.sub(m.r.d),     // SUB A,D
        0x93 => m.r.sub(m.r.e),     // SUB A,E
        0x94 => m.r.sub(m.r.h),     // SUB A,H
        0x95 => m.r.sub(m.r.l),     // SUB A,L
        0x96 => m.r.sub(m.at_hl()), // SUB A,[HL]
        0x97 => m.r.sub(m.r.a),     // SUB A,A
        0x98 => m.r.sbc(m.r.b),     // SBC A,B
        0x99 => m.r.sbc(m.r.c),     // SBC A,C
        0x9A => m.r.sbc(m.r.d),     // SBC A,D
        0x9B => m.r.sbc(m.r.e),     // SBC A,E
        0x9C => m.r.sbc(m.r.h),     // SBC A,H
        0x9D => m.r.sbc(m.r.l),     // SBC A,L
        0x9E => m.r.sbc(m.at_hl()), // SBC A,[HL]
        0x9F => m.r.sbc(m.r.a),     // SBC A,A

        0xA0 => m.r.and(m.r.b),     // AND A,B
        0xA1 => m.r.and(m.r.c),     // AND A,C
        0xA2 => m.r.and(m.r.d),     // AND A,D
        0xA3 => m.r.and(m.r.e),     // AND A,E
        0xA4 => m.r.and(m.r.h),     // AND A,H
        0xA5 => m.r.and(m.r.l),     // AND A,L
        0xA6 => m.r.and(m.at_hl()), // AND A,[HL]
        0xA7 => m.r.and(m.r.a),     // AND A,A
        0xA8 => m.r.xor(m.r.b),     // XOR A,B
        0xA9 => m.r.xor(m.r.c),     // XOR A,C
        0xAA => m.r.xor(m.r.d),     // XOR A,D
        0xAB => m.r.xor(m.r.e),     // XOR A,E
        0xAC => m.r.xor(m.r.h),     // XOR A,H
        0xAD => m.r.xor(m.r.l),     // XOR A,L
        0xAE => m.r.xor(m.at_hl()), // XOR A,[HL]
        0xAF => m.r.xor(m.r.a),     // XOR A,A

        0xB0 => m.r.or(m.r.b),     // OR A,B
        0xB1 => m.r.or(m.r.c),     // OR A,C
        0xB2 => m.r.or(m.r.d),     // OR A,D
        0xB3 => m.r.or(m.r.e),     // OR A,E
        0xB4 => m.r.or(m.r.h),     // OR A,H
        0xB5 => m.r.or(m.r.l),     // OR A,L
        0xB6 => m.r.or(m.at_hl()), // OR A,[HL]
        0xB7 => m.r.or(m.r.a),     // OR A,A
        0xB8 => m.r.cp(m.r.b),     // CP A,B
        0xB9 => m.r.cp(m.r.c),     // CP A,C
        0xBA => m.r.cp(m.r.d),     // CP A,D
        0xBB => m.r.cp(m.r.e),     // CP A,E
        0xBC => m.r.cp(m.r.h),     // CP A,H
        0xBD => m.r.cp(m.r.l),     // CP A,L
        0xBE => m.r.cp(m.at_hl()), // CP A,[HL]
        0xBF => m.r.cp(m.r.a),     // CP A,A

        0xC0 => m.ret_if(!m.r.zero()),       // RET NZ
        0xC1 => pop_bc(m),                   // POP BC
        0xC2 => m.jp_if(!m.r.zero(), n16),   // JP NZ,n16
        0xC3 => m.r.pc = n16,                // JP n16
        0xC4 => m.call_if(!m.r.zero(), n16), // CALL NZ,n16
        0xC5 => m.push(m.r.bc()),            // PUSH BC
        0xC6 => m.r.add(n8),                 // ADD A,n8
        0xC7 => m.call(0x0000),              // RST $00
        0xC8 => m.ret_if(m.r.zero()),        // RET Z
        0xC9 => m.ret(),                     // RET
        0xCA => m.jp_if(m.r.zero(), n16),    // JP Z,n16
        0xCB => return false,                // the prefix
        0xCC => m.call_if(m.r.zero(), n16),  // CALL Z,n16
        0xCD => m.call(n16),                 // CALL n16
        0xCE => m.r.adc(n8),                 // ADC A,n8
        0xCF => m.call(0x0008),              // RST $08

        0xD0 => m.ret_if(!m.r.carry()),       // RET NC
        0xD1 => pop_de(m),                    // POP DE
        0xD2 => m.jp_if(!m.r.carry(), n16),   // JP NC,n16
        0xD3 => return false,                 // undefined
        0xD4 => m.call_if(!m.r.carry(), n16), // CALL NC,n16
        0xD5 => m.push(m.r.de()),             // PUSH DE
        0xD6 => m.r.sub(n8),                  // SUB A,n8
        0xD7 => m.call(0x0010),               // RST $10
        0xD8 => m.ret_if(m.r.carry()),        // RET C
        0xD9 => m.reti(),                     // RETI
        0xDA => m.jp_if(m.r.carry(), n16),    // JP C,n16
        0xDB => return false,                 // undefined
        0xDC => m.call_if(m.r.carry(), n16),  // CALL C,n16
        0xDD => return false,                 // undefined
        0xDE => m.r.sbc(n8),                  // SBC A,n8
        0xDF => m.call(0x0018),               // RST $18

        0xE0 => m.store(high_page(n8), m.r.a), // LDH [n16],A
        0xE1 => pop_hl(m),                     // POP HL
        0xE2 => m.store(high_page(m.r.c), m.r.a), // LDH [C],A
        0xE3 => return false,                  // undefined
        0xE4 => return false,                  // undefined
        0xE5 => m.push(m.r.hl()),              // PUSH HL
        0xE6 => m.r.and(n8),                   // AND A,n8
        0xE7 => m.call(0x0020),                // RST $20
        0xE8 => m.r.sp = m.r.sp_plus(n8),      // ADD SP,e8
        0xE9 => m.r.pc = m.r.hl(),             // JP HL
        0xEA => m.store(n16, m.r.a),           // LD [n16],A
        0xEB => return false,                  // undefined
        0xEC => return false,                  // undefined
        0xED => return false,                  // undefined
        0xEE => m.r.xor(n8),                   // XOR A,n8
        0xEF => m.call(0x0028),                // RST $28

        0xF0 => m.r.a = m.read(high_page(n8)), // LDH A,[n16]
        0xF1 => pop_af(m),                     // POP AF
        0xF2 => m.r.a = m.read(high_page(m.r.c)), // LDH A,[C]
        0xF3 => m.r.ime = Ime::Off,            // DI
        0xF4 => return false,                  // undefined
        0xF5 => m.push(m.r.af()),              // PUSH AF
        0xF6 => m.r.or(n8),                    // OR A,n8
        0xF7 => m.call(0x0030),                // RST $30
        0xF8 => load_hl_sp_plus(m, n8),        // LD HL,SP+e8
        0xF9 => m.r.sp = m.r.hl(),             // LD SP,HL
        0xFA => m.r.a = m.read(n16),           // LD A,[n16]
        0xFB => enable_interrupts(m),          // EI
        0xFC => return false,                  // undefined
        0xFD => return false,                  // undefined
        0xFE => m.r.cp(n8),                    // CP A,n8
        0xFF => m.call(0x0038),                // RST $38
    }
    true
}

fn high_page(low: u8) -> u16 {
    u16::from_be_bytes([0xFF, low])
}

fn store_up(m: &mut Machine) {
    let address = m.hl_then_up();
    m.store(address, m.r.a);
}

fn store_down(m: &mut Machine) {
    let address = m.hl_then_down();
    m.store(address, m.r.a);
}

fn load_up(m: &mut Machine) {
    let address = m.hl_then_up();
    m.r.a = m.read(address);
}

fn load_down(m: &mut Machine) {
    let address = m.hl_then_down();
    m.r.a = m.read(address);
}

fn pop_bc(m: &mut Machine) {
    let word = m.pop();
    m.r.set_bc(word);
}

fn pop_de(m: &mut Machine) {
    let word = m.pop();
    m.r.set_de(word);
}

fn pop_hl(m: &mut Machine) {
    let word = m.pop();
    m.r.set_hl(word);
}

fn pop_af(m: &mut Machine) {
    let word = m.pop();
    m.r.pop_af(word);
}

fn load_hl_sp_plus(m: &mut Machine, offset: u8) {
    let sum = m.r.sp_plus(offset);
    m.r.set_hl(sum);
}

/// A request that is pending keeps it from halting. Under Arming PC goes back to the
/// HALT, so that the dispatch that follows returns to it.
fn halt(m: &mut Machine) {
    let requested = m.pending() != 0;
    match m.r.ime {
        Ime::Off if requested => m.r.mode = Mode::Repeat,
        Ime::Arming if requested => m.r.pc = m.start,
        _ => m.r.mode = Mode::Halted,
    }
}

/// Off becomes Arming; the step itself turns Arming to On.
fn enable_interrupts(m: &mut Machine) {
    if m.r.ime == Ime::Off {
        m.r.ime = Ime::Arming;
    }
}
