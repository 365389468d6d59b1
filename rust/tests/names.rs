//! The switch, the mode and the edition by their names, and the register pairs.

mod common;

use common::sample;
use std::error::Error;
use trnadulek::{Cpu, Edition, Ime, Mode};

#[test]
fn switches_and_modes_have_names_there_and_back() {
    let names = Ime::ALL.map(|ime| ime.to_string());
    assert_eq!(names, ["Off", "Arming", "On"]);
    let names = Mode::ALL.map(|mode| mode.to_string());
    assert_eq!(names, ["Running", "Repeat", "Halted", "Stopped"]);
    for ime in Ime::ALL {
        assert_eq!(ime.to_string().parse(), Ok(ime));
        assert_eq!(ime.to_string().to_lowercase().parse(), Ok(ime));
    }
    for mode in Mode::ALL {
        assert_eq!(mode.to_string().parse(), Ok(mode));
        assert_eq!(mode.to_string().to_uppercase().parse(), Ok(mode));
    }
}

#[test]
fn editions_have_names_there_and_back() {
    let names = Edition::ALL.map(|edition| edition.to_string());
    assert_eq!(names, ["Old", "New"]);
    for edition in Edition::ALL {
        assert_eq!(edition.to_string().parse(), Ok(edition));
        assert_eq!(edition.to_string().to_lowercase().parse(), Ok(edition));
    }
}

#[test]
fn names_keep_to_a_width() {
    assert_eq!(format!("[{:>8}]", Mode::Repeat), "[  Repeat]");
}

#[test]
fn other_names_are_refused_with_those_that_there_are() {
    for text in ["", "Of", "Offf", " On", "0", "Running"] {
        let error: Box<dyn Error> = text.parse::<Ime>().unwrap_err().into();
        assert_eq!(error.to_string(), "the name is not Off, Arming or On");
    }
    for text in ["", "Run", "Stopped ", "3", "On"] {
        let error: Box<dyn Error> = text.parse::<Mode>().unwrap_err().into();
        let words = "the name is not Running, Repeat, Halted or Stopped";
        assert_eq!(error.to_string(), words);
    }
    for text in ["", "Ol", "Older", " New", "1", "2"] {
        let error: Box<dyn Error> = text.parse::<Edition>().unwrap_err().into();
        assert_eq!(error.to_string(), "the name is not Old or New");
    }
}

#[test]
fn pairs_are_their_registers() {
    let mut cpu = sample();
    assert_eq!((cpu.af(), cpu.bc()), (0x11B0, 0x2233));
    assert_eq!((cpu.de(), cpu.hl()), (0x4455, 0x6677));
    cpu.set_af(0x8190);
    cpu.set_bc(0x8283);
    cpu.set_de(0x8485);
    cpu.set_hl(0x8687);
    let wanted = Cpu {
        a: 0x81,
        f: 0x90,
        b: 0x82,
        c: 0x83,
        d: 0x84,
        e: 0x85,
        h: 0x86,
        l: 0x87,
        ..sample()
    };
    assert_eq!(cpu, wanted);
}
