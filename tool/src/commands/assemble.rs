use super::Command;
use crate::arguments::Given;
use crate::assembling::Text;
use crate::report::Report;
use crate::trouble::Trouble;
use crate::{numbers, target, words};

pub const COMMAND: Command = Command {
    name: "assemble",
    form: "TEXT OUT --from ADDRESS [--replace]",
    about: "\
the bytes of TEXT, lines of spelling as list has them behind address and bytes, of old and new
spelling alike; constants may be sums. The first byte has ADDRESS. OUT has the bytes alone",
    options: &["--from", "--replace"],
    writes: true,
    carry_out,
};

fn carry_out(mut given: Given) -> Result<Report, Trouble> {
    let first = given.value("--from").ok_or_else(|| COMMAND.wrong_form())?;
    let first = numbers::word_for("--from", first)?;
    let [text, out] = COMMAND.plain(&mut given)?;
    let text = Text::read(&text)?;
    let bytes = match text.bytes(first) {
        Ok(bytes) => bytes,
        Err(fault) => return Ok(Report::refused(fault)),
    };
    target::write(&out, given.has("--replace"), &bytes)?;
    Ok(Report::wrote(format!(
        "assembled {} to {} from ${first:04X} on, wrote {}",
        text.name(),
        words::count(bytes.len() as u64, "byte"),
        words::name(&out)
    )))
}
