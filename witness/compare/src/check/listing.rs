//! The listing of a part in an edition, or by a number that is none, in outputs with
//! more room than it takes, with exactly enough, with too little, and without any.

use super::Verdict;
use crate::answer::{hex, same, same_bytes};
use crate::bench::Judged;
use crate::input::Input;
use crate::paper::{self, DONE, MEMORY_SIZE, NEW, OLD};
use crate::proved;

pub fn listing(input: &Input) -> Verdict {
    let (part, edition) = (&input.bytes, input.edition);
    let first = u16::try_from(input.number).map_err(|_| "a first address above 65,535")?;
    let text = text_in(part, first, edition)?;
    for room in rooms(text.len()) {
        let due = Due {
            text: &text,
            edition,
            room,
        };
        hold("the second program", &due, |out| {
            Some(second::list(part, first, edition, out))
        })?;
        hold("the proved core", &due, |out| {
            proved::list(part, first, edition, out)
        })?;
    }
    Ok(Judged {
        second: true,
        proved: proved::PRESENT,
        paper: true,
        ..Judged::default()
    })
}

/// The second program's text in an edition, held to paper. For a number that is no
/// edition's it is the new one's, which must not be written; the rooms go by its length.
fn text_in(part: &[u8], first: u16, edition: u32) -> Result<String, String> {
    let of = |edition| {
        let text = second::listing(part, first, edition);
        text.map_err(|code| format!("the second program refuses edition {edition} with {code}"))
    };
    let new = of(NEW)?;
    hold_to_columns(part, first, &new)?;
    if edition != OLD {
        return Ok(new);
    }
    let wanted: String = new.split_inclusive('\n').map(paper::old_line).collect();
    let old = of(OLD)?;
    let who = "M-102 (expected) and the second program, in the old edition";
    same_lines(who, wanted.as_bytes(), old.as_bytes())?;
    Ok(old)
}

/// Many too many, one too many, exactly enough, one too few, half, and none: where the
/// text itself is wrong, the most room shows it best.
fn rooms(length: usize) -> [usize; 6] {
    [
        length + 100,
        length + 1,
        length,
        length.saturating_sub(1),
        length / 2,
        0,
    ]
}

/// What M-101 fixes outright of each line: its address, its bytes, that every byte
/// of the part stands in one line and in its place, and the line feed.
fn hold_to_columns(part: &[u8], first: u16, text: &str) -> Result<(), String> {
    let mut place = 0;
    for line in text.split_inclusive('\n') {
        let taken = line.split(' ').nth(1).map_or(0, str::len) / 2;
        let bytes = part.get(place..place + taken).unwrap_or_default();
        let address = (usize::from(first) + place) % MEMORY_SIZE;
        let start = format!("{address:04X} {} ", hex(bytes));
        let right = (1..=3).contains(&taken) && line.starts_with(&start) && line.ends_with('\n');
        same(&format!("the columns of {line:?}"), true, right)?;
        place += taken;
    }
    same("the bytes that are listed", part.len(), place)
}

/// What stands in an output before: no letter of a listing, and nowhere the same
/// as beside it, so that what is moved shows too.
fn before(room: usize) -> Vec<u8> {
    (0..room).map(|place| 0x80 + (place % 127) as u8).collect()
}

/// A text that is to be listed in an edition, and the room that there is for it.
struct Due<'a> {
    text: &'a str,
    edition: u32,
    room: usize,
}

/// Holds what a judge lists against what is due; one that is not there answers nothing.
fn hold(
    who: &str,
    due: &Due,
    list: impl FnOnce(&mut [u8]) -> Option<(u8, usize)>,
) -> Result<(), String> {
    let Due {
        text,
        edition,
        room,
    } = *due;
    let untouched = before(room);
    let mut out = untouched.clone();
    let (code, length) = match list(&mut out) {
        Some(answer) => answer,
        None => return Ok(()),
    };
    let wanted_code = paper::list_code(edition, text.len(), room);
    let wanted = match wanted_code {
        DONE => text,
        _ => "",
    };
    let (listed, rest) = out.split_at(length.min(room));
    let who = format!(
        "{who}, edition {edition}, with room for {room} of {}",
        text.len()
    );
    if (wanted_code, code) == (DONE, DONE) {
        same_lines(&who, wanted.as_bytes(), listed)?;
    }
    same(
        &format!("{who}: code and length"),
        (wanted_code, wanted.len()),
        (code, length),
    )?;
    same_bytes(
        &format!("{who}: the output past the text"),
        &untouched[length..],
        rest,
    )
}

/// Nothing, or a sentence with the first line that differs.
fn same_lines(who: &str, expected: &[u8], given: &[u8]) -> Result<(), String> {
    let lines = |text: &[u8]| -> Vec<String> {
        let lines = text.split_inclusive(|letter| *letter == b'\n');
        lines
            .map(|line| String::from_utf8_lossy(line).into())
            .collect()
    };
    if expected == given {
        return Ok(());
    }
    let (expected, given) = (lines(expected), lines(given));
    let shared = expected.iter().zip(&given);
    let at = shared.take_while(|(one, other)| one == other).count();
    same(
        &format!("{who}, line {}", at + 1),
        expected.get(at),
        given.get(at),
    )
}

#[cfg(test)]
mod tests {
    use super::*;

    const TEXT: &str = "0150 20F8 JR NZ,$014A\n0152 D3 DB $D3\n";
    const PART: [u8; 3] = [0x20, 0xF8, 0xD3];

    /// A judge that answers this, having written some bytes to the front.
    fn judge(
        code: u8,
        length: usize,
        written: &'static [u8],
    ) -> impl FnOnce(&mut [u8]) -> Option<(u8, usize)> {
        move |out| {
            out[..written.len()].copy_from_slice(written);
            Some((code, length))
        }
    }

    /// How the example is held, where a judge has so much room for it.
    fn held(
        edition: u32,
        room: usize,
        list: impl FnOnce(&mut [u8]) -> Option<(u8, usize)>,
    ) -> Result<(), String> {
        let text = TEXT;
        let due = Due {
            text,
            edition,
            room,
        };
        hold("it", &due, list)
    }

    #[test]
    fn a_listing_is_taken() {
        let text = TEXT.as_bytes();
        assert_eq!(held(NEW, 40, judge(0, 37, text)), Ok(()));
        assert_eq!(held(OLD, 37, judge(0, 37, text)), Ok(()));
        assert_eq!(held(NEW, 36, judge(10, 0, b"")), Ok(()));
    }

    #[test]
    fn whatever_is_not_the_listing_is_seen() {
        let longer = b"0150 20F8 JR NZ,$014A\n0152 D3 DB $D3\n\0";
        let other = b"0150 20F8 JR NZ,$014A\n0152 D3 DB $D4\n";
        let text = TEXT.as_bytes();
        for (room, list) in [
            (40, judge(0, 37, longer)),
            (40, judge(0, 37, other)),
            (40, judge(0, 36, text)),
            (40, judge(0, 38, text)),
            (40, judge(0, usize::MAX, text)),
            (40, judge(10, 37, text)),
            (40, judge(10, 0, b"")),
            (40, judge(11, 0, b"")),
            (37, judge(10, 0, b"")),
            (36, judge(0, 36, &text[..36])),
            (36, judge(10, 0, &text[..22])),
            (36, judge(10, 1, b"")),
            (36, judge(11, 0, b"")),
        ] {
            assert!(held(NEW, room, list).is_err());
        }
    }

    #[test]
    fn a_number_that_is_no_edition_s_is_11_and_nothing_else() {
        let text = TEXT.as_bytes();
        for edition in [0, 3, 257] {
            for room in [40, 36, 1] {
                assert_eq!(held(edition, room, judge(11, 0, b"")), Ok(()));
                for list in [
                    judge(10, 0, b""),
                    judge(0, 0, b""),
                    judge(11, 1, b""),
                    judge(11, usize::MAX, b""),
                    judge(11, 0, b"0"),
                ] {
                    assert!(held(edition, room, list).is_err());
                }
            }
            assert!(held(edition, 40, judge(0, 37, text)).is_err());
        }
    }

    #[test]
    fn the_columns_are_those_of_the_part() {
        assert_eq!(hold_to_columns(&PART, 0x0150, TEXT), Ok(()));
        for (part, first, text) in [
            (&PART[..], 0x0151, TEXT),
            (&PART[..2], 0x0150, TEXT),
            (&PART, 0x0150, "0150 20F8 JR NZ,$014A\n"),
            (&PART, 0x0150, "0150 20F8 JR NZ,$014A\n0152 D3 DB $D3"),
            (&PART, 0x0150, "0150 20F8 JR NZ,$014A\n\n0152 D3 DB $D3\n"),
            (&PART, 0x0150, "0150 20F8 JR NZ,$014A\n0152 DB DB $DB\n"),
        ] {
            assert!(hold_to_columns(part, first, text).is_err(), "{text:?}");
        }
    }
}
