use trnadulek::MEMORY_SIZE;

use super::Command;
use crate::arguments::Given;
use crate::report::Report;
use crate::saved::Saved;
use crate::trouble::Trouble;
use crate::{numbers, target, words};

pub const COMMAND: Command = Command {
    name: "export",
    form: "IMAGE OUT [--bytes ADDRESS..ADDRESS] [--replace]",
    about: "\
writes the memory of IMAGE to OUT, 65,536 bytes
--bytes  these alone, both addresses among them",
    options: &["--bytes", "--replace"],
    writes: true,
    carry_out,
};

fn carry_out(mut given: Given) -> Result<Report, Trouble> {
    let [file, out] = COMMAND.plain(&mut given)?;
    let ranges: Vec<_> = given.all("--bytes").collect();
    let range = match ranges.as_slice() {
        [] => 0..MEMORY_SIZE,
        [values] => numbers::range("--bytes", &values[0])?,
        _ => return Err(Trouble::usage("export takes --bytes once")),
    };
    let image = Saved::image(&file)?;
    let bytes = &image.memory()[range.clone()];
    target::write(&out, given.has("--replace"), bytes)?;
    Ok(Report::wrote(format!(
        "exported {}, wrote {}",
        words::place(range.start, range.end),
        words::name(&out)
    )))
}
