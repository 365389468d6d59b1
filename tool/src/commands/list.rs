use std::path::Path;

use trnadulek::{listing, Edition};

use super::Command;
use crate::arguments::Given;
use crate::cartridge::asked_bank;
use crate::input::{Input, LARGEST};
use crate::kind::Kind;
use crate::listing::{asked_edition, Which, ENOUGH};
use crate::report::{Report, Status};
use crate::trouble::Trouble;
use crate::{numbers, target, words};

pub const COMMAND: Command = Command {
    name: "list",
    form: "(FILE | --part FILE --from ADDRESS) [LINES] [EDITION] [--out OUT [--replace]]",
    about: "\
bytes as text, one line an instruction; DB is a byte that begins none
of an image 20 lines from PC; of a dump or a cartridge all lines, those of more than two banks
bank by bank. FILE is known by its length; --dump FILE or --cartridge FILE say what it is
--from ADDRESS --lines N  so many lines from there, 20 if only --from is given
--bytes ADDRESS..ADDRESS  of the instructions that begin there, both addresses among them
--bank N  of this bank of a cartridge, with the options above or all of it
--part    the bytes of FILE as they are, the first one at ADDRESS, and nothing else
--edition old|new  old is the site manuals' spelling, with LDI, LDD and LDIO; new if not given
--out     to OUT and not to standard output",
    options: &[
        "--dump",
        "--cartridge",
        "--part",
        "--from",
        "--lines",
        "--bytes",
        "--bank",
        "--edition",
        "--out",
        "--replace",
    ],
    writes: false,
    carry_out,
};

const MOST_LINES: usize = 65_536;

fn carry_out(given: Given) -> Result<Report, Trouble> {
    let source = Source::named(&given)?;
    match given.value("--out") {
        None if given.has("--replace") => Err(Trouble::usage("--replace is for --out")),
        None => Ok(Report::answer(source.text(&given)?, Status::Done)),
        Some(out) => to_file(source, &given, Path::new(out))
            .map_err(|trouble| trouble.and("nothing was written")),
    }
}

fn to_file(source: Source, given: &Given, out: &Path) -> Result<Report, Trouble> {
    let text = source.text(given)?;
    target::write(out, given.has("--replace"), text.as_bytes())?;
    let (listed, out) = (words::name(source.file), words::name(out));
    Ok(Report::wrote(format!("listed {listed}, wrote {out}")))
}

/// A file, and what it was said to be.
struct Source<'a> {
    file: &'a Path,
    said: Option<&'static str>,
}

impl<'a> Source<'a> {
    /// The one file that was named.
    fn named(given: &'a Given) -> Result<Self, Trouble> {
        let source = |file, said| Source {
            file: Path::new(file),
            said,
        };
        let plain = given
            .plain
            .iter()
            .map(|file| source(file.as_os_str(), None));
        let said = ["--dump", "--cartridge", "--part"].into_iter();
        let said = said.filter_map(|option| Some(source(given.value(option)?, Some(option))));
        let mut all = plain.chain(said);
        match (all.next(), all.next()) {
            (Some(source), None) => Ok(source),
            _ => Err(COMMAND.wrong_form()),
        }
    }

    fn text(&self, given: &Given) -> Result<String, Trouble> {
        let edition = asked_edition(given)?;
        if self.said == Some("--part") {
            return part(self.file, given, edition);
        }
        let (which, bank) = (which(given)?, asked_bank(given)?);
        let kind = Kind::read(self.file, self.said, "--cartridge or --part")?;
        let text = kind.text(which, bank, edition);
        text.map_err(|words| Trouble::said(self.file, &words))
    }
}

/// The lines that are asked for by an option.
fn which(given: &Given) -> Result<Option<Which>, Trouble> {
    let ranges = given.all("--bytes");
    let ranges = ranges.map(|values| numbers::range("--bytes", &values[0]));
    let ranges: Vec<_> = ranges.collect::<Result<_, _>>()?;
    let count = given.value("--lines");
    let count = count.map(|value| numbers::count("--lines", value, 1..=MOST_LINES));
    match (from(given)?, count.transpose()?, ranges.is_empty()) {
        (None, None, true) => Ok(None),
        (None, None, false) => Ok(Some(Which::Bytes(ranges))),
        (from, count, true) => Ok(Some(Which::Lines {
            from,
            count: count.unwrap_or(ENOUGH),
        })),
        _ => Err(Trouble::usage("--bytes, or --from and --lines, not both")),
    }
}

fn from(given: &Given) -> Result<Option<u16>, Trouble> {
    let address = given.value("--from");
    address
        .map(|value| numbers::word_for("--from", value))
        .transpose()
}

/// A file's bytes as they are, in the core's own text.
fn part(file: &Path, given: &Given, edition: Edition) -> Result<String, Trouble> {
    let of_kinds = ["--lines", "--bytes", "--bank"];
    if let Some(option) = of_kinds.iter().find(|option| given.has(option)) {
        let words = format!("{option} is not for --part, which lists all of FILE");
        return Err(Trouble::usage(&words));
    }
    let first = from(given)?
        .ok_or_else(|| Trouble::usage("--part wants --from too, the address of its first byte"))?;
    let input = Input::read_whole(file, LARGEST)?;
    Ok(listing(&input.bytes, first, edition))
}
