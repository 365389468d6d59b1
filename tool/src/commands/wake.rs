use trnadulek::{open_mut, Cpu, Mode};

use super::Command;
use crate::arguments::Given;
use crate::report::Report;
use crate::saved::Saved;
use crate::trouble::Trouble;
use crate::{refused, target, words};

pub const COMMAND: Command = Command {
    name: "wake",
    form: "IMAGE OUT [--replace]",
    about: "writes a Stopped IMAGE to OUT with the mode Running; all else stays",
    options: &["--replace"],
    writes: true,
    carry_out,
};

fn carry_out(mut given: Given) -> Result<Report, Trouble> {
    let [file, out] = COMMAND.plain(&mut given)?;
    let mut image = Saved::image(&file)?;
    let mode = image.cpu.mode;
    if mode != Mode::Stopped {
        let words = format!("the mode is {mode}; only a Stopped image is woken");
        return Err(Trouble::said(&file, &words));
    }
    let awake = Cpu {
        mode: Mode::Running,
        ..image.cpu
    };
    open_mut(&mut image.input.bytes)
        .and_then(|mut image| image.set_cpu(awake))
        .map_err(|refusal| {
            Trouble::said(&file, &refused::as_saved(refusal, &image.input, false))
        })?;
    target::write(&out, given.has("--replace"), &image.input.bytes)?;
    Ok(Report::wrote(format!(
        "woke it, PC is ${:04X}, wrote {}",
        awake.pc,
        words::name(&out)
    )))
}
