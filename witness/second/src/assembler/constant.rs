//! Constants: terms joined by plus and minus, the first perhaps after a minus. A term is
//! a number or a constant in round brackets.

/// The most round brackets that may be open at once.
pub const DEEPEST: usize = 16;

const LARGEST_NUMBER: u32 = 65_535;

/// A constant of the right form: what it comes to, and what may be wrong with it.
#[derive(Clone, Copy, PartialEq, Eq, Debug)]
pub struct Constant {
    /// Nothing where a number in it is too large.
    pub value: Option<i128>,
    /// The most round brackets that are open at once.
    pub depth: usize,
}

/// A sum that waits for the constant in brackets which is its next term.
struct Waiting {
    sum: i128,
    negative: bool,
}

/// Reads the constant at the front of a text: it, and what follows it. Nothing where
/// there is none. Open brackets are kept in a list, so that none is too deep to be read.
pub fn constant(text: &[u8]) -> Option<(Constant, &[u8])> {
    let mut open: Vec<Waiting> = Vec::new();
    let mut depth = 0;
    let mut too_large = false;
    let mut sum = 0;
    // At the top a term is due, and its sign has been read.
    let (mut negative, mut rest) = minus(text);
    loop {
        if let [b'(', inside @ ..] = rest {
            open.push(Waiting { sum, negative });
            depth = depth.max(open.len());
            sum = 0;
            (negative, rest) = minus(inside);
            continue;
        }
        let (number, mut after) = number(rest)?;
        too_large |= number > LARGEST_NUMBER;
        sum = added(sum, negative, number.into());
        while let ([b')', outside @ ..], Some(waiting)) = (after, open.last()) {
            sum = added(waiting.sum, waiting.negative, sum);
            open.pop();
            after = outside;
        }
        (negative, rest) = match after {
            [b'+', next @ ..] => (false, next),
            [b'-', next @ ..] => (true, next),
            _ if open.is_empty() => {
                let value = (!too_large).then_some(sum);
                return Some((Constant { value, depth }, after));
            }
            _ => return None,
        };
    }
}

/// Whether a minus stands at the front, and what follows it.
fn minus(text: &[u8]) -> (bool, &[u8]) {
    match text {
        [b'-', rest @ ..] => (true, rest),
        _ => (false, text),
    }
}

fn added(sum: i128, negative: bool, term: i128) -> i128 {
    match negative {
        true => sum - term,
        false => sum + term,
    }
}

/// Reads the number at the front, decimal or hexadecimal after a $. One that is too large
/// is answered as some number that is.
fn number(text: &[u8]) -> Option<(u32, &[u8])> {
    let (base, digits) = match text {
        [b'$', rest @ ..] => (16, rest),
        _ => (10, text),
    };
    let count = digits
        .iter()
        .take_while(|letter| digit(base, **letter).is_some())
        .count();
    if count == 0 {
        return None;
    }
    let (digits, rest) = digits.split_at(count);
    let values = digits.iter().filter_map(|letter| digit(base, *letter));
    let number = values.fold(0, |number: u32, digit| {
        (number * base + digit).min(LARGEST_NUMBER + 1)
    });
    Some((number, rest))
}

/// What a digit stands for. Hexadecimal ones are capitals, as in a listing.
fn digit(base: u32, letter: u8) -> Option<u32> {
    match letter {
        b'0'..=b'9' => Some(u32::from(letter - b'0')),
        b'A'..=b'F' if base == 16 => Some(u32::from(letter - b'A') + 10),
        _ => None,
    }
}
