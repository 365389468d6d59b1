use std::path::{Path, PathBuf};

use super::Command;
use crate::arguments::Given;
use crate::assembling::Text;
use crate::cartridge::asked_bank;
use crate::kind::{Kind, Stretch};
use crate::listing::{asked_edition, before_and_after};
use crate::report::Report;
use crate::trouble::Trouble;
use crate::{numbers, target, words};

pub const COMMAND: Command = Command {
    name: "patch",
    form: "FILE TEXT OUT --at ADDRESS [--bank N] [EDITION] [--replace]",
    about: "\
writes FILE to OUT with the bytes of TEXT from ADDRESS on, and lists them before and after;
all else stays. TEXT is as for assemble. FILE is an image, a dump or a cartridge, known by its
length; in its place --dump FILE or --cartridge FILE say what it is
--bank N  in this bank of a cartridge
--edition old|new  how both listings are spelled; new if not given",
    options: &[
        "--dump",
        "--cartridge",
        "--at",
        "--bank",
        "--edition",
        "--replace",
    ],
    writes: true,
    carry_out,
};

fn carry_out(mut given: Given) -> Result<Report, Trouble> {
    let at = given.value("--at").ok_or_else(|| COMMAND.wrong_form())?;
    let at = numbers::word_for("--at", at)?;
    let (bank, edition) = (asked_bank(&given)?, asked_edition(&given)?);
    let named = Named::in_order(&mut given)?;
    let kind = Kind::read(&named.file, named.said, "--cartridge")?;
    let stretch = kind.stretch(at, bank);
    let stretch = stretch.map_err(|words| Trouble::said(&named.file, &words))?;
    let text = some_text(&named.text)?;
    let bytes = match text.bytes_within(at, stretch.place.len(), &stretch.end()) {
        Ok(bytes) => bytes,
        Err(fault) => return Ok(Report::refused(fault)),
    };
    let old = kind.bytes();
    let new = patched(old, stretch.place.start, &bytes);
    let (old, room) = (&old[stretch.place.clone()], &new[stretch.place.clone()]);
    let (before, after) = before_and_after(old, room, bytes.len(), at, edition);
    target::write(&named.out, given.has("--replace"), &new)?;
    let (place, out) = (place(&stretch, bytes.len()), words::name(&named.out));
    let wrote = Report::wrote(format!("patched {place}, wrote {out}"));
    Ok(wrote.after(&format!("before\n{before}after\n{after}")))
}

/// An empty text would change nothing: most likely it is not the one that was meant.
fn some_text(path: &Path) -> Result<Text, Trouble> {
    let text = Text::read(path)?;
    match text.is_empty() {
        true => Err(Trouble::said(path, "found 0 bytes, wanted a line or more")),
        false => Ok(text),
    }
}

fn patched(old: &[u8], from: usize, bytes: &[u8]) -> Vec<u8> {
    let mut new = old.to_vec();
    new[from..from + bytes.len()].copy_from_slice(bytes);
    new
}

/// Where the first bytes of a stretch lie, and in which bank of several.
fn place(stretch: &Stretch, count: usize) -> String {
    let first = usize::from(stretch.first);
    let place = words::place(first, first + count);
    match stretch.of_many {
        true => format!("{}, {place}", stretch.whole),
        false => place,
    }
}

/// The three files, the first of which may stand behind an option.
struct Named {
    file: PathBuf,
    said: Option<&'static str>,
    text: PathBuf,
    out: PathBuf,
}

impl Named {
    fn in_order(given: &mut Given) -> Result<Self, Trouble> {
        let said = match (given.value("--dump"), given.value("--cartridge")) {
            (None, None) => None,
            (Some(file), None) => Some(("--dump", PathBuf::from(file))),
            (None, Some(file)) => Some(("--cartridge", PathBuf::from(file))),
            (Some(_), Some(_)) => return Err(COMMAND.wrong_form()),
        };
        let (said, file, text, out) = match said {
            None => {
                let [file, text, out] = COMMAND.plain(given)?;
                (None, file, text, out)
            }
            Some((option, file)) => {
                let [text, out] = COMMAND.plain(given)?;
                (Some(option), file, text, out)
            }
        };
        Ok(Named {
            file,
            said,
            text,
            out,
        })
    }
}
