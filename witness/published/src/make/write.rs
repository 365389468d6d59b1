//! Cases as JSON text.

use second::{Ime, State};
use std::collections::BTreeMap;

/// A case that a core has answered.
pub struct Made {
    pub name: String,
    pub before: State,
    pub initial_ram: BTreeMap<u16, u8>,
    pub after: State,
    pub final_ram: BTreeMap<u16, u8>,
    pub cycles: u32,
}

/// A file: one case on each line.
pub fn file_text(cases: &[String]) -> String {
    format!("[\n{}\n]\n", cases.join(",\n"))
}

pub fn case_text(made: &Made) -> String {
    format!(
        r#"{{"name":"{}","initial":{},"final":{},"cycles":{}}}"#,
        made.name,
        snapshot(&made.before, &made.initial_ram),
        snapshot(&made.after, &made.final_ram),
        made.cycles
    )
}

fn snapshot(state: &State, ram: &BTreeMap<u16, u8>) -> String {
    let numbers = [
        ("pc", u32::from(state.pc)),
        ("sp", u32::from(state.sp)),
        ("a", u32::from(state.a)),
        ("b", u32::from(state.b)),
        ("c", u32::from(state.c)),
        ("d", u32::from(state.d)),
        ("e", u32::from(state.e)),
        ("f", u32::from(state.f)),
        ("h", u32::from(state.h)),
        ("l", u32::from(state.l)),
        ("ime", u32::from(state.ime == Ime::On)),
        ("ei", u32::from(state.ime == Ime::Arming)),
    ];
    let numbers = numbers.map(|(key, number)| format!(r#""{key}":{number}"#));
    let bytes: Vec<_> = ram
        .iter()
        .map(|(address, byte)| format!("[{address},{byte}]"))
        .collect();
    format!(r#"{{{},"ram":[{}]}}"#, numbers.join(","), bytes.join(","))
}
