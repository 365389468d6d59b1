//! Every spelling of both editions, and every form with a constant with values at the edges,
//! each written in many ways; JR's targets at the ends of its reach.

use super::forms::{forms, spellings, Form};
use super::{given, given_line, ADDRESS};
use crate::context::{Context, Outcome};
use crate::paper::lines::{bytes, Kind};
use std::collections::BTreeSet;

pub fn operands(context: &mut Context) -> Outcome {
    for (spelling, bytes) in spellings() {
        given_line(context, &spelling, ADDRESS, Ok(bytes))?;
    }
    for form in forms() {
        edges(context, &form)?;
        small_values(context, &form)?;
        random_values(context, &form)?;
        if form.kind == Kind::Target {
            reach(context, &form)?;
        }
        if form.before == "JR " {
            beyond_the_memory(context, &form)?;
        }
    }
    Ok(())
}

/// Both sides of every limit that some kind of constant has.
const EDGES: [i64; 58] = [
    -131_070, -65_537, -65_536, -65_535, -32_769, -32_768, -32_767, -513, -512, -257, -256, -255,
    -129, -128, -127, -64, -9, -8, -7, -2, -1, 0, 1, 2, 6, 7, 8, 9, 15, 16, 24, 32, 40, 48, 55, 56,
    57, 64, 72, 127, 128, 129, 254, 255, 256, 257, 32_767, 32_768, 0xFE80, 0xFEFF, 0xFF00, 0xFF01,
    0xFF80, 0xFFFE, 65_535, 65_536, 65_537, 131_070,
];

fn edges(context: &mut Context, form: &Form) -> Outcome {
    for value in EDGES {
        for constant in ways(value) {
            holds(context, form, &constant, value, ADDRESS)?;
        }
    }
    Ok(())
}

fn holds(context: &mut Context, form: &Form, constant: &str, value: i64, address: u16) -> Outcome {
    let wanted = bytes(form.kind, form.opcode, value.into(), address);
    given_line(context, &form.with(constant), address, wanted)
}

/// Ways to write a value. Where it is no number, being too large, it is out of every range.
fn ways(value: i64) -> BTreeSet<String> {
    let sign = if value < 0 { "-" } else { "" };
    let size = value.abs();
    let (half, rest) = (value / 2, value - value / 2);
    let joined = if rest < 0 { "" } else { "+" };
    BTreeSet::from([
        format!("{value}"),
        format!("{sign}${size:X}"),
        format!("{sign}${size:04X}"),
        format!("{sign}0000{size}"),
        format!("({value})"),
        format!("-({})", -value),
        format!("{half}{joined}{rest}"),
        format!("({half})+($7)-(-({rest}))-$7"),
        format!("65535+$FFFF-65535-$FFFF+({value})"),
        format!("-65535-(65535+({}))+65535+65535", -value),
    ])
}

/// Every value around zero, which takes in every byte, and those around them.
fn small_values(context: &mut Context, form: &Form) -> Outcome {
    for value in -300..=300 {
        holds(context, form, &value.to_string(), value, ADDRESS)?;
    }
    Ok(())
}

const RANDOM_VALUES: usize = 200;

fn random_values(context: &mut Context, form: &Form) -> Outcome {
    for _ in 0..RANDOM_VALUES {
        let value = i64::from(context.rng.below(131_071)) - 65_535;
        let address = context.rng.word();
        holds(context, form, &value.to_string(), value, address)?;
    }
    Ok(())
}

/// Addresses from which a reach ends at, before or behind where something turns over.
const PLACES: [u16; 16] = [
    0x0000, 0x0001, 0x007D, 0x007E, 0x007F, 0x0080, 0x0150, 0x7F7E, 0x7FFE, 0x7FFF, 0x8000, 0xFF7E,
    0xFF7F, 0xFFFD, 0xFFFE, 0xFFFF,
];

/// How far a target is: around both ends, in reach, and as far as can be.
const DISTANCES: [i64; 26] = [
    -32_768, -32_767, -257, -256, -255, -131, -130, -129, -128, -127, -126, -2, -1, 0, 1, 2, 125,
    126, 127, 128, 129, 130, 254, 255, 256, 32_767,
];

/// What may stand before a JR, and so many bytes it has.
const BEFORE: [(&str, &[u8]); 3] = [
    ("", &[]),
    ("NOP\n", &[0x00]),
    ("LD BC,$0201\nSTOP\n", &[0x01, 0x01, 0x02, 0x10, 0x00]),
];

fn reach(context: &mut Context, form: &Form) -> Outcome {
    for place in PLACES {
        for distance in DISTANCES {
            let target = (i64::from(place) + 2 + distance).rem_euclid(65_536);
            for (before, taken) in BEFORE {
                let first = place.wrapping_sub(taken.len() as u16);
                reaches(context, form, before, taken, first, target)?;
                // As a negative number, if there is one: it counts modulo 65,536.
                reaches(context, form, before, taken, first, target - 65_536)?;
            }
        }
    }
    Ok(())
}

fn reaches(
    context: &mut Context,
    form: &Form,
    before: &str,
    taken: &[u8],
    first: u16,
    target: i64,
) -> Outcome {
    let text = format!("{before}{}\n", form.with(&target.to_string()));
    let place = first.wrapping_add(taken.len() as u16);
    let line = text.lines().count();
    let wanted = bytes(form.kind, form.opcode, target.into(), place)
        .map(|jump| [taken, &jump].concat())
        .map_err(|code| (code, line));
    given(
        context,
        text.as_bytes(),
        first,
        wanted.as_deref().map_err(|fault| *fault),
    )
}

/// A line's address counts modulo 65,536 also where more bytes than that come before it.
fn beyond_the_memory(context: &mut Context, form: &Form) -> Outcome {
    for more in [65_535, 65_536, 65_537, 131_072] {
        for distance in [-129, -128, -2, 127, 128] {
            let place = i64::from(ADDRESS) + more as i64;
            let target = (place + 2 + distance).rem_euclid(65_536);
            let (before, taken) = ("NOP\n".repeat(more), vec![0; more]);
            reaches(context, form, &before, &taken, ADDRESS, target)?;
        }
    }
    Ok(())
}

#[cfg(test)]
mod tests {
    use super::*;

    #[test]
    fn a_value_has_many_ways() {
        let expected = [
            "(-2)+($7)-(-(-3))-$7",
            "(-5)",
            "-$0005",
            "-$5",
            "-(5)",
            "-00005",
            "-2-3",
            "-5",
            "-65535-(65535+(5))+65535+65535",
            "65535+$FFFF-65535-$FFFF+(-5)",
        ];
        assert_eq!(ways(-5), BTreeSet::from(expected.map(String::from)));
        assert_eq!(ways(300).len(), 10);
    }
}
