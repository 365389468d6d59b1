use std::ops::Range;

use trnadulek::{save_image, Refusal, IMAGE_SIZE, MEMORY_SIZE};

use super::Command;
use crate::arguments::Given;
use crate::input::Input;
use crate::report::Report;
use crate::saved::Saved;
use crate::trouble::Trouble;
use crate::{numbers, refused, target, words};

pub const COMMAND: Command = Command {
    name: "import",
    form: "IMAGE FILE OUT [--at ADDRESS] [--replace]",
    about: "\
writes IMAGE to OUT with the 65,536 bytes of FILE as its memory; the registers stay
--at  with the bytes of FILE, however many, from ADDRESS on; the other bytes stay too",
    options: &["--at", "--replace"],
    writes: true,
    carry_out,
};

fn carry_out(mut given: Given) -> Result<Report, Trouble> {
    let [file, bytes, out] = COMMAND.plain(&mut given)?;
    let at = given.value("--at");
    let at = at
        .map(|value| numbers::word_for("--at", value))
        .transpose()?;
    let image = Saved::image(&file)?;
    let bytes = Input::read(&bytes, MEMORY_SIZE)?;
    let (memory, range) = match at {
        None => (bytes.bytes.clone(), 0..MEMORY_SIZE),
        Some(at) => patched(image.memory(), &bytes, usize::from(at))?,
    };
    let mut new = vec![0; IMAGE_SIZE];
    save_image(image.cpu, &memory, &mut new).map_err(|refusal| match refusal {
        Refusal::MemoryLength => Trouble::said(&bytes.path, &refused::as_memory(refusal, &bytes)),
        _ => Trouble::said(&file, &refused::as_saved(refusal, &image.input, false)),
    })?;
    target::write(&out, given.has("--replace"), &new)?;
    Ok(Report::wrote(format!(
        "put {} to {}, wrote {}",
        bytes.name(),
        words::place(range.start, range.end),
        words::name(&out)
    )))
}

/// The memory with bytes from an address on, and where they lie.
fn patched(memory: &[u8], bytes: &Input, from: usize) -> Result<(Vec<u8>, Range<usize>), Trouble> {
    let to = from + bytes.bytes.len();
    if to == from || to > MEMORY_SIZE {
        let room = words::grouped((MEMORY_SIZE - from) as u64);
        let found = &bytes.length;
        let words = format!("found {found} bytes, wanted 1 to {room} from ${from:04X} on");
        return Err(Trouble::said(&bytes.path, &words));
    }
    let mut memory = memory.to_vec();
    memory[from..to].copy_from_slice(&bytes.bytes);
    Ok((memory, from..to))
}
