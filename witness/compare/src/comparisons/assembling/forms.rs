//! The forms of lines, from the second program's listing: each spelling of both editions,
//! and those with a constant with what stands around it.

use super::ADDRESS;
use crate::paper::lines::Kind;
use crate::paper::{NEW, OLD, PREFIX, STOP};
use std::collections::BTreeMap;

/// A line with a constant: what stands before and after it, and the opcode, of which a bit
/// number and a vector are taken away.
pub struct Form {
    pub before: String,
    pub after: String,
    pub kind: Kind,
    pub opcode: u8,
}

impl Form {
    pub fn with(&self, constant: &str) -> String {
        format!("{}{constant}{}", self.before, self.after)
    }
}

/// Every spelling, with operands that are all different, and its bytes; without a newline.
pub fn spellings() -> BTreeMap<String, Vec<u8>> {
    let plain = (0..=255).map(|opcode| match opcode {
        STOP => vec![STOP, 0x00],
        opcode => vec![opcode, 0x34, 0x12],
    });
    let prefixed = (0..=255).map(|second| vec![PREFIX, second]);
    let mut spellings = BTreeMap::new();
    for bytes in plain.chain(prefixed) {
        for edition in [OLD, NEW] {
            let text = second::listing(&bytes, ADDRESS, edition).expect("an edition");
            let line = text.lines().next().expect("a line");
            let columns: Vec<&str> = line.splitn(3, ' ').collect();
            let taken = columns[1].len() / 2;
            spellings.insert(columns[2].to_string(), bytes[..taken].to_vec());
        }
    }
    spellings
}

/// Every form with a constant, once.
pub fn forms() -> Vec<Form> {
    let mut forms = BTreeMap::new();
    for (spelling, bytes) in spellings() {
        if let Some(form) = form(&spelling, &bytes) {
            forms.insert(form.with("*"), form);
        }
    }
    forms.into_values().collect()
}

fn form(spelling: &str, bytes: &[u8]) -> Option<Form> {
    let bit = ["BIT ", "RES ", "SET "]
        .iter()
        .any(|name| spelling.starts_with(name));
    let start = match bit {
        true => 4,
        false => spelling.find('$')?,
    };
    let is_digit = |letter: char| letter == '$' || letter.is_ascii_hexdigit();
    let size = spelling[start..].find(|letter| !is_digit(letter));
    let end = size.map_or(spelling.len(), |size| start + size);
    let (before, after) = (&spelling[..start], &spelling[end..]);
    let kind = match before {
        "BIT " | "RES " | "SET " => Kind::Bit,
        "RST " => Kind::Vector,
        "DB " => Kind::Data,
        "ADD SP," | "LD HL,SP+" => Kind::Offset,
        _ if before.starts_with("JR ") => Kind::Target,
        _ if before.starts_with("LDH ") || before.starts_with("LDIO ") => Kind::Port,
        _ if bytes.len() == 3 => Kind::Word,
        _ => Kind::Byte,
    };
    let opcode = match kind {
        Kind::Bit => bytes[1] & 0b1100_0111,
        Kind::Vector => bytes[0] & 0b1100_0111,
        _ => bytes[0],
    };
    Some(Form {
        before: before.to_string(),
        after: after.to_string(),
        kind,
        opcode,
    })
}

#[cfg(test)]
mod tests {
    use super::super::ONE_OF_EACH;
    use super::*;

    /// 500 instructions, eleven undefined bytes, and eight old spellings. That $10 is no
    /// STOP does not occur.
    #[test]
    fn there_are_519_spellings() {
        assert_eq!(spellings().len(), 500 + 11 + 8);
    }

    /// By the headings of document 001, and two old ones.
    #[test]
    fn the_forms_by_kind() {
        let forms = forms();
        let count = |kind| forms.iter().filter(|form| form.kind == kind).count();
        let kinds = [Kind::Byte, Kind::Word, Kind::Offset, Kind::Target];
        assert_eq!(kinds.map(count), [8 + 8, 4 + 3 + 5 + 5, 2, 5]);
        let kinds = [Kind::Port, Kind::Bit, Kind::Vector, Kind::Data];
        assert_eq!(kinds.map(count), [4, 24, 1, 1]);
    }

    #[test]
    fn one_of_each_is_one_of_them() {
        for (before, after, kind, opcode) in ONE_OF_EACH {
            let same = |form: &Form| (&*form.before, &*form.after) == (before, after);
            let form = forms().into_iter().find(same).expect(before);
            let opcode = if kind == Kind::Data {
                form.opcode
            } else {
                opcode
            };
            assert_eq!((form.kind, form.opcode), (kind, opcode));
        }
    }
}
