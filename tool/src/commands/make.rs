use std::ffi::OsStr;
use std::path::Path;

use trnadulek::{save_image, Cpu, Ime, Mode, Refusal, UnknownName, IMAGE_SIZE, MEMORY_SIZE};

use super::Command;
use crate::arguments::Given;
use crate::input::Input;
use crate::numbers::word_for;
use crate::report::Report;
use crate::trouble::Trouble;
use crate::{refused, target, words};

pub const COMMAND: Command = Command {
    name: "make",
    form: "OUT (--dump FILE | --cartridge FILE) [START VALUES] [--replace]",
    about: "\
an image from a dump of 65,536 bytes, or from a cartridge of at most 32,768
--af X --bc X --de X --hl X --sp X --pc X, hexadecimal
--ime off|arming|on  --mode running|repeat|halted|stopped
what is not given: all zero for a dump, the first console model's for a cartridge",
    options: &[
        "--dump",
        "--cartridge",
        "--af",
        "--bc",
        "--de",
        "--hl",
        "--sp",
        "--pc",
        "--ime",
        "--mode",
        "--replace",
    ],
    writes: true,
    carry_out,
};

const LARGEST_CARTRIDGE: usize = 32_768;

/// The registers when the first console model comes to a cartridge.
const FIRST_MODEL: Cpu = Cpu {
    a: 0x01,
    f: 0xB0,
    b: 0x00,
    c: 0x13,
    d: 0x00,
    e: 0xD8,
    h: 0x01,
    l: 0x4D,
    sp: 0xFFFE,
    pc: 0x0100,
    ime: Ime::Off,
    mode: Mode::Running,
};

fn carry_out(mut given: Given) -> Result<Report, Trouble> {
    let [out] = COMMAND.plain(&mut given)?;
    let (source, mut cpu) = match (given.value("--dump"), given.value("--cartridge")) {
        (Some(file), None) => (file, Cpu::default()),
        (None, Some(file)) => (file, FIRST_MODEL),
        (Some(_), Some(_)) => return Err(Trouble::usage("a dump or a cartridge, not both")),
        (None, None) => return Err(COMMAND.wrong_form()),
    };
    for (option, values) in given.options() {
        values
            .iter()
            .try_for_each(|value| set(&mut cpu, option, value))?;
    }
    let memory = match given.has("--cartridge") {
        true => cartridge(Path::new(source))?,
        false => Input::read(Path::new(source), MEMORY_SIZE)?,
    };
    let mut image = vec![0; IMAGE_SIZE];
    save_image(cpu, &memory.bytes, &mut image).map_err(|refusal| match refusal {
        Refusal::FlagBits => {
            Trouble::Failed(refused::said(refusal, &refused::flags("--af", cpu.f)))
        }
        _ => Trouble::said(&memory.path, &refused::as_memory(refusal, &memory)),
    })?;
    target::write(&out, given.has("--replace"), &image)?;
    Ok(Report::wrote(format!("made {}", words::name(&out))))
}

/// The memory with a cartridge at its start.
fn cartridge(file: &Path) -> Result<Input, Trouble> {
    let mut memory = Input::read(file, LARGEST_CARTRIDGE)?;
    if !(1..=LARGEST_CARTRIDGE).contains(&memory.bytes.len()) {
        return Err(Trouble::said(
            file,
            &format!(
                "found {} bytes, wanted a cartridge of 1 to 32,768; banks are not in this version",
                memory.length
            ),
        ));
    }
    memory.bytes.resize(MEMORY_SIZE, 0);
    Ok(memory)
}

fn set(cpu: &mut Cpu, option: &str, value: &OsStr) -> Result<(), Trouble> {
    let text = value.to_str().unwrap_or_default();
    let unknown = |error: UnknownName| Trouble::usage(&format!("{option} {text}: {error}"));
    match option {
        "--af" => cpu.set_af(word_for(option, value)?),
        "--bc" => cpu.set_bc(word_for(option, value)?),
        "--de" => cpu.set_de(word_for(option, value)?),
        "--hl" => cpu.set_hl(word_for(option, value)?),
        "--sp" => cpu.sp = word_for(option, value)?,
        "--pc" => cpu.pc = word_for(option, value)?,
        "--ime" => cpu.ime = text.parse().map_err(unknown)?,
        "--mode" => cpu.mode = text.parse().map_err(unknown)?,
        _ => {}
    }
    Ok(())
}
