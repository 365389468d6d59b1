//! What stands after an instruction's name, read from the left.

use super::constant::{constant, Constant};
use Operand::{At, AtConstant, Named, SpPlus};

/// An operand by its form; whether a name means anything is not asked here.
#[derive(Clone, Copy, PartialEq, Eq, Debug)]
pub enum Operand<'a> {
    /// A register, a pair or a condition.
    Named(&'a [u8]),
    /// A name in square brackets.
    At(&'a [u8]),
    Constant(Constant),
    /// A constant in square brackets.
    AtConstant(Constant),
    /// SP, a plus, and a constant.
    SpPlus(Constant),
}

/// The capitals at the front, perhaps none, and what follows them.
pub fn name(text: &[u8]) -> (&[u8], &[u8]) {
    let capitals = text.iter().take_while(|letter| letter.is_ascii_uppercase());
    text.split_at(capitals.count())
}

/// One operand or more, with a comma between two and nothing after the last.
pub fn operands(text: &[u8]) -> Option<Vec<Operand<'_>>> {
    let mut operands = Vec::new();
    let mut rest = text;
    loop {
        let (operand, after) = operand(rest)?;
        operands.push(operand);
        match after {
            [] => return Some(operands),
            [b',', next @ ..] => rest = next,
            _ => return None,
        }
    }
}

fn operand(text: &[u8]) -> Option<(Operand<'_>, &[u8])> {
    match text {
        [b'[', inside @ ..] => in_brackets(inside),
        [b'S', b'P', b'+', rest @ ..] => {
            let (constant, rest) = constant(rest)?;
            Some((SpPlus(constant), rest))
        }
        [b'A'..=b'Z', ..] => {
            let (name, rest) = name(text);
            Some((Named(name), rest))
        }
        _ => {
            let (constant, rest) = constant(text)?;
            Some((Operand::Constant(constant), rest))
        }
    }
}

fn in_brackets(text: &[u8]) -> Option<(Operand<'_>, &[u8])> {
    let (operand, rest) = match text {
        [b'A'..=b'Z', ..] => {
            let (name, rest) = name(text);
            (At(name), rest)
        }
        _ => {
            let (constant, rest) = constant(text)?;
            (AtConstant(constant), rest)
        }
    };
    let rest = rest.strip_prefix(b"]")?;
    Some((operand, rest))
}
