use std::path::Path;

use trnadulek::IMAGE_SIZE;

use super::Command;
use crate::arguments::Given;
use crate::input::Input;
use crate::report::{Report, Status};
use crate::saved::Saved;
use crate::trouble::Trouble;

pub const COMMAND: Command = Command {
    name: "check",
    form: "FILE..",
    about: "whether each is a valid head or image, and if not, the refusal and what was found",
    options: &[],
    writes: false,
    carry_out,
};

fn carry_out(given: Given) -> Result<Report, Trouble> {
    if given.plain.is_empty() {
        return Err(COMMAND.wrong_form());
    }
    let mut report = Report::answer(String::new(), Status::Done);
    for file in &given.plain {
        match checked(Path::new(file)) {
            Ok((line, status)) => {
                report.text += &line;
                report.status = report.status.max(status);
            }
            Err(trouble) => {
                report.complaints.push(trouble.line());
                report.status = Status::Trouble;
            }
        }
    }
    Ok(report)
}

fn checked(file: &Path) -> Result<(String, Status), Trouble> {
    let input = Input::read(file, IMAGE_SIZE)?;
    let name = input.name();
    Ok(match Saved::judged(input) {
        Ok(saved) => (format!("{name}: a valid {}\n", saved.kind()), Status::Done),
        Err(words) => (format!("{name}: {words}\n"), Status::No),
    })
}
