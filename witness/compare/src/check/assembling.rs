//! The assembly of a text, in outputs with more room than it takes, with exactly enough,
//! with too little, and without any.

use super::Verdict;
use crate::answer::{same, same_bytes};
use crate::bench::Judged;
use crate::input::Input;
use crate::paper::lines::{self, Due};
use crate::paper::DONE;
use crate::proved;

/// Code, line and length.
type Numbers = (u8, usize, usize);

pub fn assembling(input: &Input) -> Verdict {
    let text = &input.bytes;
    let first = u16::try_from(input.number).map_err(|_| "a first address above 65,535")?;
    let lines = lines_of(text, first)?;
    for room in rooms(lines.iter().flatten().map(Vec::len).sum()) {
        let due = lines::due(&lines, room);
        hold("the second program", text, &due, room, |out| {
            let given = second::assemble(text, first, out);
            Some((given.code, given.line, given.length))
        })?;
        hold("the proved core", text, &due, room, |out| {
            proved::assemble(text, first, out)
        })?;
    }
    Ok(Judged {
        second: true,
        proved: proved::PRESENT,
        paper: true,
        ..Judged::default()
    })
}

/// What the second program makes of each line by itself, up to the first that is at fault,
/// held to what its characters leave open. The addresses are counted here.
fn lines_of(text: &[u8], first: u16) -> Result<Vec<Result<Vec<u8>, u8>>, String> {
    let mut lines = Vec::new();
    let mut address = usize::from(first);
    for line in text.split_inclusive(|letter| *letter == b'\n') {
        let bytes = second::assembled_line(line, (address % 65_536) as u16);
        hold_to_characters(line, &bytes)?;
        let taken = bytes.as_ref().map(Vec::len);
        lines.push(bytes.clone());
        match taken {
            Ok(taken) => address += taken,
            Err(_) => break,
        }
    }
    Ok(lines)
}

fn hold_to_characters(line: &[u8], bytes: &Result<Vec<u8>, u8>) -> Result<(), String> {
    let (code, right_size) = match bytes {
        Ok(bytes) => (DONE, (1..=3).contains(&bytes.len())),
        Err(code) => (*code, true),
    };
    let open = lines::open_codes(line);
    if right_size && open.contains(&code) {
        return Ok(());
    }
    Err(format!(
        "the second program has {bytes:?} for {}, of which M-103 leaves open {open:?}",
        shown(line)
    ))
}

/// Up to how many bytes a text is tried in every room that there is.
const FEW: usize = 9;

/// Many too many, one too many, exactly enough, and less: every room that is less, if the
/// bytes are few, else one too few, half, and none.
fn rooms(length: usize) -> Vec<usize> {
    let mut rooms = vec![length + 100, length + 1, length];
    match length {
        0..=FEW => rooms.extend((0..length).rev()),
        _ => rooms.extend([length - 1, length / 2, 0]),
    }
    rooms
}

/// What stands in an output before: nowhere the same as beside it, so that what is moved
/// shows too.
fn before(room: usize) -> Vec<u8> {
    (0..room).map(|place| (0xA5 + 89 * place) as u8).collect()
}

/// Holds what a judge assembles against what is due; one that is not there answers nothing.
fn hold(
    who: &str,
    text: &[u8],
    due: &Due,
    room: usize,
    assemble: impl FnOnce(&mut [u8]) -> Option<Numbers>,
) -> Result<(), String> {
    let untouched = before(room);
    let mut out = untouched.clone();
    let given = match assemble(&mut out) {
        Some(given) => given,
        None => return Ok(()),
    };
    let wanted = (due.code, due.line, due.bytes.len());
    let who = || format!("{who} on {}, with room for {room}", shown(text));
    if wanted != given {
        return same(&format!("{}: code, line and length", who()), wanted, given);
    }
    let (bytes, rest) = out.split_at(due.bytes.len());
    if bytes == due.bytes && rest == &untouched[bytes.len()..] {
        return Ok(());
    }
    same_bytes(&format!("{}: the bytes", who()), &due.bytes, bytes)?;
    let rest_before = &untouched[bytes.len()..];
    same_bytes(
        &format!("{}: the output past them", who()),
        rest_before,
        rest,
    )
}

/// A text as it is told: all of a short one, of a long one both ends.
fn shown(text: &[u8]) -> String {
    let plain = |text: &[u8]| -> String {
        let letters = text
            .iter()
            .flat_map(|letter| std::ascii::escape_default(*letter));
        letters.map(char::from).collect()
    };
    match text.len() {
        0..=200 => format!("\"{}\"", plain(text)),
        length => format!(
            "\"{}\" .. \"{}\" ({length} characters)",
            plain(&text[..60]),
            plain(&text[length - 60..])
        ),
    }
}

#[cfg(test)]
mod tests {
    use super::*;
    use crate::paper::{LINE, RANGE, ROOM};

    const TEXT: &[u8] = b"JR NZ,$014A\nDB $D3\n";
    const BYTES: &[u8] = &[0x20, 0xF8, 0xD3];

    /// A judge that answers this, having written some bytes to the front.
    fn judge(
        numbers: Numbers,
        written: &'static [u8],
    ) -> impl FnOnce(&mut [u8]) -> Option<Numbers> {
        move |out| {
            out[..written.len()].copy_from_slice(written);
            Some(numbers)
        }
    }

    /// How a text is held, where a judge has so much room for it.
    fn held(
        text: &[u8],
        room: usize,
        assemble: impl FnOnce(&mut [u8]) -> Option<Numbers>,
    ) -> Result<(), String> {
        let due = lines::due(&lines_of(text, 0x0150)?, room);
        hold("it", text, &due, room, assemble)
    }

    #[test]
    fn the_bytes_are_taken() {
        assert_eq!(held(TEXT, 9, judge((0, 0, 3), BYTES)), Ok(()));
        assert_eq!(held(TEXT, 3, judge((0, 0, 3), BYTES)), Ok(()));
        assert_eq!(held(TEXT, 2, judge((ROOM, 2, 0), b"")), Ok(()));
        assert_eq!(held(TEXT, 1, judge((ROOM, 1, 0), b"")), Ok(()));
        assert_eq!(held(b"", 2, judge((0, 0, 0), b"")), Ok(()));
        let text = b"NOP\nDB 256\nx\n";
        assert_eq!(held(text, 1, judge((RANGE, 2, 0), b"")), Ok(()));
        assert_eq!(held(text, 0, judge((ROOM, 1, 0), b"")), Ok(()));
    }

    #[test]
    fn whatever_is_not_right_is_seen() {
        for (room, assemble) in [
            (9, judge((0, 0, 3), &[0x20, 0xF8, 0xD4])),
            (9, judge((0, 0, 3), &[0x20, 0xF8])),
            (9, judge((0, 0, 3), &[0x20, 0xF8, 0xD3, 0x00])),
            (9, judge((0, 0, 2), BYTES)),
            (9, judge((0, 0, 4), BYTES)),
            (9, judge((0, 0, usize::MAX), BYTES)),
            (9, judge((0, 1, 3), BYTES)),
            (9, judge((0, 2, 3), BYTES)),
            (9, judge((LINE, 1, 0), b"")),
            (9, judge((ROOM, 1, 0), b"")),
            (3, judge((ROOM, 2, 0), b"")),
            (2, judge((0, 0, 2), &[0x20, 0xF8])),
            (2, judge((ROOM, 1, 0), b"")),
            (2, judge((ROOM, 3, 0), b"")),
            (2, judge((ROOM, 2, 2), b"")),
            (2, judge((ROOM, 2, 0), &[0x20, 0xF8])),
            (2, judge((RANGE, 2, 0), b"")),
        ] {
            assert!(held(TEXT, room, assemble).is_err());
        }
    }

    #[test]
    fn every_room_is_tried_where_the_bytes_are_few() {
        assert_eq!(rooms(0), [100, 1, 0]);
        assert_eq!(rooms(3), [103, 4, 3, 2, 1, 0]);
        assert_eq!(rooms(1000), [1100, 1001, 1000, 999, 500, 0]);
    }

    #[test]
    fn a_line_is_held_to_its_characters() {
        let held = |line: &[u8], bytes| hold_to_characters(line, &bytes).is_ok();
        assert!(held(b"NOP\n", Ok(vec![0])));
        assert!(!held(b"NOP\n", Ok(vec![])));
        assert!(!held(b"NOP\n", Ok(vec![0; 4])));
        assert!(!held(b"NOP\n", Err(RANGE)));
        assert!(!held(b"NOP\n", Err(ROOM)));
        assert!(!held(b"NOP", Ok(vec![0])));
    }
}
