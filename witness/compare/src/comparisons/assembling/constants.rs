//! Constants: numbers of many digits, sums that go far out and come back, brackets of any
//! depth, and random ones whose value is known as they are made.

use super::{given_line, nested, ADDRESS, ONE_OF_EACH};
use crate::context::{Context, Outcome};
use crate::paper::lines::{bytes, Kind, DEEPEST};
use crate::paper::{LINE, NESTING, RANGE};
use random::Random;

pub fn constants(context: &mut Context) -> Outcome {
    numbers(context)?;
    random_numbers(context)?;
    sums(context)?;
    wide(context)?;
    deep(context)?;
    malformed(context)?;
    random_constants(context)
}

/// A constant in a line of each kind: what it is worth is known, or its code.
fn in_each(context: &mut Context, constant: &str, value: Result<i128, u8>) -> Outcome {
    for (before, after, kind, opcode) in ONE_OF_EACH {
        in_line(context, (before, after, kind, opcode), constant, value)?;
    }
    Ok(())
}

fn in_line(
    context: &mut Context,
    (before, after, kind, opcode): (&str, &str, Kind, u8),
    constant: &str,
    value: Result<i128, u8>,
) -> Outcome {
    let line = format!("{before}{constant}{after}");
    let wanted = value.and_then(|value| bytes(kind, opcode, value, ADDRESS));
    given_line(context, &line, ADDRESS, wanted)
}

/// Numbers as they are written, and what they are if they are not too large: around 65,535,
/// and what a number of 16, 32, 64 or 128 bits would take for a small one.
#[rustfmt::skip] // As many in a line as fit.
const NUMBERS: [(&str, Option<i128>); 50] = [
    ("0", Some(0)), ("1", Some(1)), ("7", Some(7)), ("9", Some(9)), ("10", Some(10)), ("56", Some(56)),
    ("127", Some(127)), ("128", Some(128)), ("255", Some(255)), ("256", Some(256)), ("32767", Some(32_767)),
    ("32768", Some(32_768)), ("65280", Some(65_280)), ("65529", Some(65_529)), ("65530", Some(65_530)),
    ("65534", Some(65_534)), ("65535", Some(65_535)), ("65536", None), ("65537", None), ("65539", None),
    ("65540", None), ("65544", None), ("65600", None), ("66000", None), ("70000", None), ("99999", None),
    ("100000", None), ("131072", None), ("655360", None), ("2147483648", None), ("2147483656", None),
    ("4294967295", None), ("4294967296", None), ("4294967304", None), ("9223372036854775808", None),
    ("9223372036854775816", None), ("18446744073709551615", None), ("18446744073709551616", None),
    ("18446744073709551624", None), ("340282366920938463463374607431768211456", None),
    ("340282366920938463463374607431768211464", None), ("9999999999999999999999999999999999999999", None),
    ("$FFFF", Some(65_535)), ("$10000", None), ("$10008", None), ("$100000000", None), ("$100000008", None),
    ("$10000000000000008", None), ("$100000000000000000000000000000008", None),
    ("$FFFFFFFFFFFFFFFFFFFFFFFFFFFFFFFFFFFFFFFF", None),
];

/// Zeros that may stand before a number's digits.
const ZEROS: [usize; 8] = [0, 1, 2, 5, 19, 20, 40, 1_000];

fn numbers(context: &mut Context) -> Outcome {
    for (number, value) in NUMBERS {
        for zeros in ZEROS {
            let zeros = "0".repeat(zeros);
            let number = match number.strip_prefix('$') {
                Some(digits) => format!("${zeros}{digits}"),
                None => format!("{zeros}{number}"),
            };
            around(context, &number, value.ok_or(RANGE))?;
        }
    }
    for value in 0..=65_535_i128 {
        let kind = ONE_OF_EACH[1];
        in_line(context, kind, &format!("{value}"), Ok(value))?;
        in_line(context, kind, &format!("${value:X}"), Ok(value))?;
    }
    Ok(())
}

/// A number by itself, with a sign, in brackets, and where it is taken away again.
fn around(context: &mut Context, number: &str, value: Result<i128, u8>) -> Outcome {
    in_each(context, number, value)?;
    in_each(context, &format!("-{number}"), value.map(|value| -value))?;
    in_each(context, &format!("({number})"), value)?;
    in_each(context, &format!("{number}-{number}"), value.map(|_| 0))?;
    in_each(context, &format!("8-({number}-{number})"), value.map(|_| 8))
}

/// How many numbers of random digits there are of each length up to this one.
const RANDOM_NUMBERS: (usize, u32) = (6, 60);

fn random_numbers(context: &mut Context) -> Outcome {
    let (count, longest) = RANDOM_NUMBERS;
    for length in 1..=longest {
        for _ in 0..count {
            let rng = &mut context.rng;
            let zeros = rng.below(length) as usize;
            let digits = |rng: &mut Random, of: &[u8]| -> String {
                let digits = (zeros as u32..length).map(|_| char::from(rng.pick(of)));
                format!("{}{}", "0".repeat(zeros), digits.collect::<String>())
            };
            let decimal = digits(rng, b"0123456789");
            let hexadecimal = digits(rng, b"0123456789ABCDEF");
            around(context, &decimal, worth(&decimal, 10))?;
            around(context, &format!("${hexadecimal}"), worth(&hexadecimal, 16))?;
        }
    }
    Ok(())
}

/// What digits are worth. One that is longer than 128 bits is too large in any case.
fn worth(digits: &str, base: u32) -> Result<i128, u8> {
    let value = i128::from_str_radix(digits, base).map_err(|_| RANGE)?;
    match value {
        0..=65_535 => Ok(value),
        _ => Err(RANGE),
    }
}

/// What sums come to: values of each kind, and those that a counter of 16, 32 or 64 bits
/// would lose something of.
const TOTALS: [i128; 19] = [
    -32_769, -32_768, -129, -128, -1, 0, 5, 8, 56, 127, 128, 255, 256, 65_280, 65_535, 65_536,
    65_541, 131_077, 196_608,
];

/// Sums of some hundred terms that go far out, to one side or by turns, and come back to a
/// total that is known.
fn sums(context: &mut Context) -> Outcome {
    for total in TOTALS {
        for (up, down) in [
            ("+65535", "-65535"),
            ("-65535", "+65535"),
            ("+$FFFF", "-$FFFF"),
        ] {
            for count in [1, 2, 3, 100] {
                let there_and_back = format!("0{}{}", up.repeat(count), down.repeat(count));
                let by_turns = format!("0{}", format!("{up}{down}").repeat(count));
                for away in [there_and_back, by_turns] {
                    let back = steps_to(total);
                    in_each(context, &format!("{away}{back}"), Ok(total))?;
                    in_each(context, &format!("8-({away})-8{back}"), Ok(total))?;
                }
            }
        }
    }
    Ok(())
}

/// Terms that come to a value, each of at most 65,535.
fn steps_to(value: i128) -> String {
    let sign = if value < 0 { '-' } else { '+' };
    let mut left = value.unsigned_abs();
    let mut steps = String::new();
    while left > 0 {
        let step = left.min(65_535);
        steps += &format!("{sign}{step}");
        left -= step;
    }
    steps
}

/// Thousands of terms. 65,537 terms of 65,535 come to 2^32 - 1.
fn wide(context: &mut Context) -> Outcome {
    for count in [1_000, 4_096, 32_768, 65_536, 65_537, 70_000] {
        let far = 65_535 * count as i128;
        let up = "+65535".repeat(count);
        let down = "-65535".repeat(count);
        let ones = "+1".repeat(count);
        let brackets = "+(1)-(1)".repeat(count);
        for (constant, value) in [
            (format!("8{up}{down}"), 8),
            (format!("8{down}{up}"), 8),
            (format!("8{up}"), 8 + far),
            (format!("8{down}"), 8 - far),
            (format!("8{ones}-{}", 1_000), 8 + count as i128 - 1_000),
            (format!("8{brackets}"), 8),
            (format!("8{down}+65535{up}-65535"), 8),
            (format!("(8{up})-(0{up})"), 8),
        ] {
            in_line(context, ONE_OF_EACH[1], &constant, Ok(value))?;
            in_line(context, ONE_OF_EACH[6], &constant, Ok(value))?;
        }
    }
    // 2^32 and 8, and 2^32 and 65,544, which 32 bits would take for small ones.
    for more in [1 + 8, 65_536 + 9] {
        let value = 65_535 * 65_537 + more;
        let constant = format!("0{}{}", "+65535".repeat(65_537), steps_to(more));
        in_line(context, ONE_OF_EACH[1], &constant, Ok(value))?;
        let constant = format!("0{}{}", "-65535".repeat(65_537), steps_to(-more));
        in_line(context, ONE_OF_EACH[1], &constant, Ok(-value))?;
    }
    Ok(())
}

/// Depths on both sides of what is allowed, and of what a counter of 8 or 16 bits, or a
/// stack, would hold.
const DEPTHS: [usize; 23] = [
    0, 1, 2, 3, 14, 15, 16, 17, 18, 19, 31, 32, 33, 48, 255, 256, 257, 272, 273, 1_000, 65_536,
    65_552, 100_000,
];

/// Deeper ones are long, and stand in lines of two kinds alone.
const DEEPEST_IN_EACH: usize = 1_000;

fn in_some(
    context: &mut Context,
    depth: usize,
    constant: &str,
    value: Result<i128, u8>,
) -> Outcome {
    if depth <= DEEPEST_IN_EACH {
        return in_each(context, constant, value);
    }
    in_line(context, ONE_OF_EACH[1], constant, value)?;
    in_line(context, ONE_OF_EACH[7], constant, value)
}

fn deep(context: &mut Context) -> Outcome {
    for depth in DEPTHS {
        for (constant, value, deepest) in [
            (nested(depth, "8"), 8, depth),
            (nested(depth, "-8"), -8, depth),
            (nested(depth, "7+1"), 8, depth),
            (format!("0+{}", nested(depth, "8")), 8, depth),
            (format!("16-{}", nested(depth, "8")), 8, depth),
            (format!("-{}", nested(depth, "8")), -8, depth),
            (
                format!("{}+{}", nested(depth, "3"), nested(depth, "5")),
                8,
                depth,
            ),
            (
                format!("({}+{})", nested(depth, "3"), nested(depth, "5")),
                8,
                depth + 1,
            ),
            (format!("{}+1+(((2)))", nested(depth, "5")), 8, depth.max(3)),
            (
                format!("((1)+{}+(2))", nested(depth, "5")),
                8,
                (depth + 1).max(2),
            ),
            (leaning_left(depth), 8, depth),
            (leaning_right(depth), 8 + depth as i128 % 2, depth),
            (signs(depth), if depth & 1 == 0 { 8 } else { -8 }, depth),
        ] {
            let value = if deepest > DEEPEST {
                Err(NESTING)
            } else {
                Ok(value)
            };
            in_some(context, depth, &constant, value)?;
        }
        too_large_and_deep(context, depth)?;
    }
    Ok(())
}

/// ((8+0)+0)+0
fn leaning_left(depth: usize) -> String {
    format!("{}8{}", "(".repeat(depth), "+0)".repeat(depth))
}

/// 1-(1-(1-(8))): each bracket turns the sign, and a one is added.
fn leaning_right(depth: usize) -> String {
    let inside = if depth & 1 == 0 { "8" } else { "-8" };
    format!("{}{inside}{}", "1-(".repeat(depth), ")".repeat(depth))
}

/// -(-(-(8)))
fn signs(depth: usize) -> String {
    format!("{}8{}", "-(".repeat(depth), ")".repeat(depth))
}

/// 13 comes before 14, wherever the number stands.
fn too_large_and_deep(context: &mut Context, depth: usize) -> Outcome {
    let code = if depth > DEEPEST { NESTING } else { RANGE };
    for constant in [
        nested(depth, "65536"),
        nested(depth, "65536-65536"),
        format!("65536+{}", nested(depth, "1")),
        format!("{}-$10000", nested(depth, "1")),
    ] {
        in_some(context, depth, &constant, Err(code))?;
    }
    let value = if depth > DEEPEST {
        Err(NESTING)
    } else {
        Ok(300)
    };
    in_some(context, depth, &nested(depth, "300"), value)
}

/// What has no form, at any depth: 12 comes before 13 and 14.
fn malformed(context: &mut Context) -> Outcome {
    for depth in DEPTHS {
        for inside in [
            "", "-", "+8", "--8", "8+", "8-", "8+-8", "8 ", "$", "-$", "0x8", "%1", "8,8",
        ] {
            in_some(context, depth, &nested(depth, inside), Err(LINE))?;
            let too_large = format!("65536+{}", nested(depth, inside));
            in_some(context, depth, &too_large, Err(LINE))?;
        }
        for constant in [
            format!("{})", nested(depth, "8")),
            format!("({}", nested(depth, "8")),
            format!("8{}", nested(depth + 1, "8")),
            format!("{}8", nested(depth + 1, "8")),
            format!("{}{}", nested(depth + 1, "8"), nested(depth + 1, "8")),
            format!("{}+", nested(depth, "8")),
            format!("{} ", nested(depth, "8")),
            format!(" {}", nested(depth, "8")),
            format!("+{}", nested(depth, "8")),
            format!("--{}", nested(depth, "8")),
            format!("{}-$", nested(depth, "8")),
            format!("{}8{}", "(".repeat(depth), ")".repeat(depth + 17)),
            format!("{}8{}", "(".repeat(depth + 17), ")".repeat(depth)),
        ] {
            in_some(context, depth, &constant, Err(LINE))?;
        }
    }
    Ok(())
}

/// A constant made at random, its value, and the most brackets that are open at once.
struct Made {
    text: String,
    /// Nothing where some number is too large.
    value: Option<i128>,
    depth: usize,
}

const RANDOM_CONSTANTS: usize = 6_000;

fn random_constants(context: &mut Context) -> Outcome {
    for _ in 0..RANDOM_CONSTANTS {
        let rng = &mut context.rng;
        let deepest = rng.pick(&[0, 1, 3, 8, 15, 16, 17, 20]);
        let mut made = constant(rng, deepest);
        if let (Some(value), true) = (made.value, rng.one_in(2)) {
            let total = rng.pick(&TOTALS);
            made.text += &steps_to(total - value);
            made.value = Some(total);
        }
        let value = match made.depth > DEEPEST {
            true => Err(NESTING),
            false => made.value.ok_or(RANGE),
        };
        let kind = rng.pick(&ONE_OF_EACH);
        in_line(context, kind, &made.text, value)?;
        in_line(context, ONE_OF_EACH[1], &made.text, value)?;
        dropped(context, &made.text)?;
    }
    Ok(())
}

/// A character less, wherever it was: nobody knows here what is left.
fn dropped(context: &mut Context, text: &str) -> Outcome {
    let at = context.rng.below(text.len() as u32) as usize;
    let text = format!("DB {}{}\n", &text[..at], &text[at + 1..]);
    super::check(context, text.as_bytes())
}

/// Terms, of which one goes on to the deepest bracket, and others sometimes to a near one, so
/// that a deep constant is not a long one too.
fn constant(rng: &mut Random, deepest: usize) -> Made {
    let mut made = Made {
        text: String::new(),
        value: Some(0),
        depth: 0,
    };
    let count = 1 + rng.below(4);
    let deep = rng.below(count);
    for place in 0..count {
        let negative = rng.one_in(2);
        made.text += match (place, negative) {
            (_, true) => "-",
            (0, false) => "",
            (_, false) => "+",
        };
        let deepest = if place == deep {
            deepest
        } else {
            deepest.min(2)
        };
        let term = match deepest > 0 && (place == deep || rng.one_in(4)) {
            true => in_brackets(constant(rng, deepest - 1)),
            false => number(rng),
        };
        made.text += &term.text;
        made.depth = made.depth.max(term.depth);
        let sum = made.value.zip(term.value);
        made.value = sum.map(|(sum, term)| if negative { sum - term } else { sum + term });
    }
    made
}

fn in_brackets(inside: Made) -> Made {
    Made {
        text: format!("({})", inside.text),
        depth: inside.depth + 1,
        ..inside
    }
}

fn number(rng: &mut Random) -> Made {
    let number = match rng.below(8) {
        0 => rng.pick(&[0, 255, 256, 32_768, 65_535]),
        1..=3 => rng.below(65_536),
        _ => rng.below(300),
    };
    let number = if rng.one_in(60) {
        number + 65_536
    } else {
        number
    };
    let text = match rng.below(4) {
        0 => format!("${number:X}"),
        1 => format!("${number:04X}"),
        2 => format!("0{number}"),
        _ => format!("{number}"),
    };
    Made {
        text,
        value: (number <= 65_535).then_some(number.into()),
        depth: 0,
    }
}

#[cfg(test)]
mod tests {
    use super::*;

    #[test]
    fn constants_lean_as_they_should() {
        assert_eq!(leaning_left(2), "((8+0)+0)");
        assert_eq!(leaning_right(0), "8");
        assert_eq!(leaning_right(1), "1-(-8)");
        assert_eq!(leaning_right(2), "1-(1-(8))");
        assert_eq!(signs(3), "-(-(-(8)))");
        assert_eq!((&*steps_to(-65_540), &*steps_to(0)), ("-65535-5", ""));
    }

    #[test]
    fn digits_are_worth_what_they_say() {
        assert_eq!(
            (worth("0065535", 10), worth("65536", 10)),
            (Ok(65_535), Err(RANGE))
        );
        assert_eq!(
            (worth("FFFF", 16), worth("10000", 16)),
            (Ok(65_535), Err(RANGE))
        );
        assert_eq!(worth(&"9".repeat(60), 10), Err(RANGE));
    }
}
