//! From a name and its operands to bytes, by the headings of the instruction reference
//! and, for LDI, LDD and LDIO, by the remarks of documents 002 to 004.

use super::constant::Constant;
use super::operand::Operand;
use Operand::{At, AtConstant, Constant as Number, Named, SpPlus};
use Spelled::{Alone, Prefixed, Stop, With};

/// An instruction, or data, of the right form.
#[derive(Clone, Copy)]
pub enum Spelled {
    /// One byte.
    Alone(u8),
    /// A byte after $CB.
    Prefixed(u8),
    Stop,
    /// A byte, and a constant that follows it or goes into it.
    With(u8, Kind, Constant),
}

/// What a constant is to its instruction.
#[derive(Clone, Copy)]
pub enum Kind {
    Byte,
    Word,
    /// A byte with a sign.
    Offset,
    /// Where JR goes to.
    Target,
    /// An address of LDH.
    Port,
    /// A bit number, of an instruction after $CB.
    Bit,
    Vector,
    /// A byte by itself.
    Data,
}

impl Spelled {
    /// The most round brackets that are open at once.
    pub fn depth(&self) -> usize {
        match self {
            With(_, _, constant) => constant.depth,
            _ => 0,
        }
    }

    /// The bytes at an address; nothing where a number or the value is out of range.
    pub fn bytes(&self, address: u16) -> Option<Vec<u8>> {
        match *self {
            Alone(byte) => Some(vec![byte]),
            Prefixed(byte) => Some(vec![0xCB, byte]),
            Stop => Some(vec![0x10, 0x00]),
            With(byte, kind, constant) => with(byte, kind, constant.value?, address),
        }
    }
}

fn with(byte: u8, kind: Kind, value: i128, address: u16) -> Option<Vec<u8>> {
    let bytes = match kind {
        Kind::Data => vec![unsigned_byte(value)?],
        Kind::Byte => vec![byte, unsigned_byte(value)?],
        Kind::Offset => vec![byte, signed_byte(value)?],
        Kind::Word => {
            let [low, high] = word(value)?.to_le_bytes();
            vec![byte, low, high]
        }
        Kind::Port => match word(value)?.to_le_bytes() {
            [low, 0xFF] => vec![byte, low],
            _ => return None,
        },
        Kind::Target => {
            let behind = address.wrapping_add(2);
            let distance = word(value)?.wrapping_sub(behind) as i16;
            vec![byte, signed_byte(distance.into())?]
        }
        Kind::Bit => match value {
            0..=7 => vec![0xCB, byte + 8 * value as u8],
            _ => return None,
        },
        Kind::Vector => match value {
            0 | 8 | 16 | 24 | 32 | 40 | 48 | 56 => vec![byte + value as u8],
            _ => return None,
        },
    };
    Some(bytes)
}

/// n8, of which a negative one counts modulo 256.
fn unsigned_byte(value: i128) -> Option<u8> {
    (-128..=255).contains(&value).then_some(value as u8)
}

/// e8.
fn signed_byte(value: i128) -> Option<u8> {
    (-128..=127).contains(&value).then_some(value as u8)
}

/// n16, of which a negative one counts modulo 65,536.
fn word(value: i128) -> Option<u16> {
    (-32_768..=65_535).contains(&value).then_some(value as u16)
}

/// What a name with these operands stands for; nothing if there is no such form.
pub fn spelled(name: &[u8], operands: &[Operand]) -> Option<Spelled> {
    let found = match operands {
        [] => alone(name)?,
        [one] => with_one(name, one)?,
        [one, other] => with_two(name, one, other)?,
        _ => return None,
    };
    Some(found)
}

fn alone(name: &[u8]) -> Option<Spelled> {
    let byte = match name {
        b"NOP" => 0x00,
        b"RLCA" => 0x07,
        b"RRCA" => 0x0F,
        b"RLA" => 0x17,
        b"RRA" => 0x1F,
        b"DAA" => 0x27,
        b"CPL" => 0x2F,
        b"SCF" => 0x37,
        b"CCF" => 0x3F,
        b"HALT" => 0x76,
        b"RET" => 0xC9,
        b"RETI" => 0xD9,
        b"DI" => 0xF3,
        b"EI" => 0xFB,
        b"STOP" => return Some(Stop),
        _ => return None,
    };
    Some(Alone(byte))
}

fn with_one(name: &[u8], operand: &Operand) -> Option<Spelled> {
    let found = match (name, operand) {
        (b"DB", Number(constant)) => With(0, Kind::Data, *constant),
        (b"JP", Named(b"HL")) => Alone(0xE9),
        (b"JP", Number(constant)) => With(0xC3, Kind::Word, *constant),
        (b"CALL", Number(constant)) => With(0xCD, Kind::Word, *constant),
        (b"JR", Number(constant)) => With(0x18, Kind::Target, *constant),
        (b"RST", Number(constant)) => With(0xC7, Kind::Vector, *constant),
        (b"RET", condition) => Alone(0xC0 + 8 * condition_of(condition)?),
        (b"POP", pair) => Alone(0xC1 + 16 * stacked(pair)?),
        (b"PUSH", pair) => Alone(0xC5 + 16 * stacked(pair)?),
        (b"INC", operand) => Alone(counted(operand, 0x04, 0x03)?),
        (b"DEC", operand) => Alone(counted(operand, 0x05, 0x0B)?),
        (name, operand) => Prefixed(8 * rotation(name)? + place(operand)?),
    };
    Some(found)
}

fn with_two(name: &[u8], to: &Operand, from: &Operand) -> Option<Spelled> {
    match name {
        b"LD" => load(to, from),
        b"LDH" | b"LDIO" => high_load(to, from),
        b"LDI" => moving_load(to, from, 0x22, 0x2A),
        b"LDD" => moving_load(to, from, 0x32, 0x3A),
        b"JP" => jump(0xC2, Kind::Word, to, from),
        b"JR" => jump(0x20, Kind::Target, to, from),
        b"CALL" => jump(0xC4, Kind::Word, to, from),
        b"BIT" => bit(0x40, to, from),
        b"RES" => bit(0x80, to, from),
        b"SET" => bit(0xC0, to, from),
        _ => arithmetic(name, to, from),
    }
}

fn load(to: &Operand, from: &Operand) -> Option<Spelled> {
    let found = match (to, from) {
        (At(b"HL"), At(b"HL")) => return None,
        (AtConstant(constant), Named(b"A")) => With(0xEA, Kind::Word, *constant),
        (AtConstant(constant), Named(b"SP")) => With(0x08, Kind::Word, *constant),
        (Named(b"A"), AtConstant(constant)) => With(0xFA, Kind::Word, *constant),
        (Named(b"HL"), SpPlus(constant)) => With(0xF8, Kind::Offset, *constant),
        (Named(b"SP"), Named(b"HL")) => Alone(0xF9),
        (At(b"BC"), Named(b"A")) => Alone(0x02),
        (At(b"DE"), Named(b"A")) => Alone(0x12),
        (At(b"HLI"), Named(b"A")) => Alone(0x22),
        (At(b"HLD"), Named(b"A")) => Alone(0x32),
        (Named(b"A"), At(b"BC")) => Alone(0x0A),
        (Named(b"A"), At(b"DE")) => Alone(0x1A),
        (Named(b"A"), At(b"HLI")) => Alone(0x2A),
        (Named(b"A"), At(b"HLD")) => Alone(0x3A),
        (to, Number(constant)) => match place(to) {
            Some(place) => With(0x06 + 8 * place, Kind::Byte, *constant),
            None => With(0x01 + 16 * pair(to)?, Kind::Word, *constant),
        },
        (to, from) => Alone(0x40 + 8 * place(to)? + place(from)?),
    };
    Some(found)
}

/// LDH, which document 002 and those after it also have as LDIO.
fn high_load(to: &Operand, from: &Operand) -> Option<Spelled> {
    let found = match (to, from) {
        (AtConstant(constant), Named(b"A")) => With(0xE0, Kind::Port, *constant),
        (Named(b"A"), AtConstant(constant)) => With(0xF0, Kind::Port, *constant),
        (At(b"C"), Named(b"A")) => Alone(0xE2),
        (Named(b"A"), At(b"C")) => Alone(0xF2),
        _ => return None,
    };
    Some(found)
}

/// LDI and LDD: one byte if A is stored, another if it is loaded.
fn moving_load(to: &Operand, from: &Operand, stored: u8, loaded: u8) -> Option<Spelled> {
    match (to, from) {
        (At(b"HL"), Named(b"A")) => Some(Alone(stored)),
        (Named(b"A"), At(b"HL")) => Some(Alone(loaded)),
        _ => None,
    }
}

fn jump(byte: u8, kind: Kind, condition: &Operand, target: &Operand) -> Option<Spelled> {
    let condition = condition_of(condition)?;
    match target {
        Number(constant) => Some(With(byte + 8 * condition, kind, *constant)),
        _ => None,
    }
}

fn bit(byte: u8, number: &Operand, operand: &Operand) -> Option<Spelled> {
    match number {
        Number(constant) => Some(With(byte + place(operand)?, Kind::Bit, *constant)),
        _ => None,
    }
}

fn arithmetic(name: &[u8], to: &Operand, from: &Operand) -> Option<Spelled> {
    let found = match (name, to, from) {
        (b"ADD", Named(b"HL"), pair_added) => Alone(0x09 + 16 * pair(pair_added)?),
        (b"ADD", Named(b"SP"), Number(constant)) => With(0xE8, Kind::Offset, *constant),
        (name, Named(b"A"), Number(constant)) => {
            With(0xC6 + 8 * operation(name)?, Kind::Byte, *constant)
        }
        (name, Named(b"A"), from) => Alone(0x80 + 8 * operation(name)? + place(from)?),
        _ => return None,
    };
    Some(found)
}

/// INC and DEC: a byte for places, and one for pairs.
fn counted(operand: &Operand, of_place: u8, of_pair: u8) -> Option<u8> {
    match place(operand) {
        Some(place) => Some(of_place + 8 * place),
        None => Some(of_pair + 16 * pair(operand)?),
    }
}

fn operation(name: &[u8]) -> Option<u8> {
    let number = match name {
        b"ADD" => 0,
        b"ADC" => 1,
        b"SUB" => 2,
        b"SBC" => 3,
        b"AND" => 4,
        b"XOR" => 5,
        b"OR" => 6,
        b"CP" => 7,
        _ => return None,
    };
    Some(number)
}

fn rotation(name: &[u8]) -> Option<u8> {
    let number = match name {
        b"RLC" => 0,
        b"RRC" => 1,
        b"RL" => 2,
        b"RR" => 3,
        b"SLA" => 4,
        b"SRA" => 5,
        b"SWAP" => 6,
        b"SRL" => 7,
        _ => return None,
    };
    Some(number)
}

/// A register of eight bits, or the byte at HL.
fn place(operand: &Operand) -> Option<u8> {
    let number = match operand {
        Named(b"B") => 0,
        Named(b"C") => 1,
        Named(b"D") => 2,
        Named(b"E") => 3,
        Named(b"H") => 4,
        Named(b"L") => 5,
        At(b"HL") => 6,
        Named(b"A") => 7,
        _ => return None,
    };
    Some(number)
}

fn pair(operand: &Operand) -> Option<u8> {
    let number = match operand {
        Named(b"BC") => 0,
        Named(b"DE") => 1,
        Named(b"HL") => 2,
        Named(b"SP") => 3,
        _ => return None,
    };
    Some(number)
}

/// What PUSH and POP take.
fn stacked(operand: &Operand) -> Option<u8> {
    match operand {
        Named(b"AF") => Some(3),
        Named(b"SP") => None,
        operand => pair(operand),
    }
}

fn condition_of(operand: &Operand) -> Option<u8> {
    let number = match operand {
        Named(b"NZ") => 0,
        Named(b"Z") => 1,
        Named(b"NC") => 2,
        Named(b"C") => 3,
        _ => return None,
    };
    Some(number)
}
