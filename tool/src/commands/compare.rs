use super::Command;
use crate::arguments::Given;
use crate::differences::{self, Shown};
use crate::report::{Report, Status};
use crate::saved::Saved;
use crate::trouble::Trouble;

pub const COMMAND: Command = Command {
    name: "compare",
    form: "A B [--all]",
    about: "\
which registers and which bytes of memory differ, A's before B's
--all  every range of bytes, and whole",
    options: &["--all"],
    writes: false,
    carry_out,
};

fn carry_out(mut given: Given) -> Result<Report, Trouble> {
    let [a, b] = COMMAND.plain(&mut given)?;
    let (old, new) = (Saved::read(&a)?, Saved::read(&b)?);
    if old.is_image() != new.is_image() {
        return Err(Trouble::Failed(format!(
            "{} is a valid {} and {} a valid {}: only two of a kind are compared",
            old.input.name(),
            old.kind(),
            new.input.name(),
            new.kind()
        )));
    }
    let text = differences::between(&old, &new, Shown::asked(&given));
    Ok(match text.is_empty() {
        true => Report::answer("the same\n".to_string(), Status::Done),
        false => Report::answer(text, Status::No),
    })
}
