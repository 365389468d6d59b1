use trnadulek::IMAGE_SIZE;

use super::Command;
use crate::arguments::Given;
use crate::report::{Report, Status};
use crate::saved::Saved;
use crate::target::Target;
use crate::trouble::Trouble;
use crate::{numbers, slices, words};

pub const COMMAND: Command = Command {
    name: "run",
    form: "IMAGE BUDGET OUT [--replace | --replace-ended]",
    about: "\
runs IMAGE for BUDGET cycles and writes the image after it to OUT
a run that is ended by 3 or 4 does not replace the IMAGE that it started from: its steps
go to OUT.ended, or OUT.ended-2 and so on
--replace-ended  as --replace, and such a run replaces IMAGE too",
    options: &["--replace", "--replace-ended"],
    writes: true,
    carry_out,
};

fn carry_out(mut given: Given) -> Result<Report, Trouble> {
    let [file, budget, out] = COMMAND.plain(&mut given)?;
    let budget = numbers::cycles(budget.as_os_str())?;
    let even_ended = given.has("--replace-ended");
    let mut image = Saved::image(&file)?;
    let target = Target::new(&out, even_ended || given.has("--replace"), IMAGE_SIZE)?;
    let total = slices::run(&mut image, budget)?;
    let ending = total.ending(&image);
    let start_stays = ending.is_some() && target.replaces(image.input.identity) && !even_ended;
    let written = match start_stays {
        true => {
            let written = beside(target, &image, total.steps)?;
            let kept = words::name(&out);
            format!("{written}; {kept} was not replaced (--replace-ended would)")
        }
        false => {
            target.write(&image.input.bytes)?;
            format!("wrote {}", words::name(&out))
        }
    };
    let mut report = Report::wrote(format!("ran {}, {written}", total.words()));
    if let Some(line) = ending {
        report.complaints.push(line);
        report.status = Status::No;
    }
    Ok(report)
}

/// The steps go to a file of their own, if there were any.
fn beside(target: Target, image: &Saved, steps: u64) -> Result<String, Trouble> {
    if steps == 0 {
        return Ok("wrote nothing".to_string());
    }
    let path = target.write_beside(&image.input.bytes, "ended")?;
    Ok(format!("wrote {}", words::name(&path)))
}
