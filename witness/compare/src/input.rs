//! One input of a comparison, and its text: what `compare again` reads is what a
//! failure prints.

use crate::answer::{hex, registers};
use crate::paper::{self, HEAD_SIZE, IMAGE_SIZE, INPUT_SIZE, MEMORY_SIZE};
use second::{Ime, Mode, State};
use std::fmt;

/// What is done with an input.
#[derive(Clone, Copy, PartialEq, Eq, Debug)]
pub enum Kind {
    /// One step on a memory.
    Step,
    /// A run on a memory; the number is the budget.
    Run,
    /// A run of an image where it lies; the number is the budget.
    RunImage,
    /// The adding routine, set up in state and memory as document 01 says.
    Adding,
    /// Loading a head.
    Load,
    /// Opening an image.
    Open,
    /// Saving a head; the number is the length of the slice.
    SaveHead,
    /// Saving an image of a memory; the number is the length of the slice.
    SaveImage,
    /// A state block of any codes, saved and where it is refused stepped and run by the
    /// proved core's C interface; the number is the length of the slice for the head.
    Block,
    /// The listing of a part of any length, in an edition; the number is its first address.
    List,
    /// The assembly of a text of any length; the number is its first address.
    Assemble,
    /// The row of the opcode table that the number names.
    Row,
    /// The program on its standard input.
    Program,
}

/// How a kind is written: its name, whether it has a state, its number's name,
/// and the usual length of its bytes.
struct Form {
    kind: Kind,
    name: &'static str,
    state: bool,
    number: Option<&'static str>,
    size: usize,
}

const fn form(
    kind: Kind,
    name: &'static str,
    state: bool,
    number: Option<&'static str>,
    size: usize,
) -> Form {
    Form {
        kind,
        name,
        state,
        number,
        size,
    }
}

const FORMS: [Form; 13] = [
    form(Kind::Step, "step", true, None, MEMORY_SIZE),
    form(Kind::Run, "run", true, Some("budget"), MEMORY_SIZE),
    form(
        Kind::RunImage,
        "run-image",
        false,
        Some("budget"),
        IMAGE_SIZE,
    ),
    form(Kind::Adding, "adding", true, None, MEMORY_SIZE),
    form(Kind::Load, "load", false, None, HEAD_SIZE),
    form(Kind::Open, "open", false, None, IMAGE_SIZE),
    form(Kind::SaveHead, "save-head", true, Some("room"), 0),
    form(
        Kind::SaveImage,
        "save-image",
        true,
        Some("room"),
        MEMORY_SIZE,
    ),
    form(Kind::Block, "block", false, Some("room"), 14),
    form(Kind::List, "list", false, Some("first"), 0),
    form(Kind::Assemble, "assemble", false, Some("first"), 0),
    form(Kind::Row, "row", false, Some("row"), 0),
    form(Kind::Program, "program", false, None, INPUT_SIZE),
];

impl Kind {
    /// Whether bytes of any length mean something, and none of them is refused for it.
    pub fn takes_any_length(self) -> bool {
        matches!(self, Kind::List | Kind::Assemble)
    }

    pub fn has_edition(self) -> bool {
        self == Kind::List
    }

    fn form(self) -> &'static Form {
        let found = FORMS.iter().find(|form| form.kind == self);
        found.expect("every kind has a form")
    }
}

/// An input: of its parts a kind uses some, and the others are empty; the edition of a
/// listing is the new one where nothing else is said.
#[derive(Clone, PartialEq, Eq, Debug)]
pub struct Input {
    pub kind: Kind,
    pub state: State,
    pub number: u32,
    pub edition: u32,
    pub bytes: Vec<u8>,
}

impl Input {
    pub fn step(state: State, memory: Vec<u8>) -> Self {
        Self::new(Kind::Step, state, 0, memory)
    }

    pub fn run(state: State, memory: Vec<u8>, budget: u32) -> Self {
        Self::new(Kind::Run, state, budget, memory)
    }

    pub fn run_image(image: Vec<u8>, budget: u32) -> Self {
        Self::new(Kind::RunImage, State::default(), budget, image)
    }

    pub fn list(part: Vec<u8>, first: u16, edition: u32) -> Self {
        Input {
            edition,
            ..Self::new(Kind::List, State::default(), first.into(), part)
        }
    }

    pub fn assemble(text: Vec<u8>, first: u16) -> Self {
        Self::new(Kind::Assemble, State::default(), first.into(), text)
    }

    pub fn new(kind: Kind, state: State, number: u32, bytes: Vec<u8>) -> Self {
        Input {
            kind,
            state,
            number,
            edition: paper::NEW,
            bytes,
        }
    }

    /// An input that is bytes and nothing else.
    pub fn bytes(kind: Kind, bytes: Vec<u8>) -> Self {
        Self::new(kind, State::default(), 0, bytes)
    }
}

impl fmt::Display for Input {
    fn fmt(&self, out: &mut fmt::Formatter) -> fmt::Result {
        let form = self.kind.form();
        write!(out, "{}", form.name)?;
        if let Some(name) = form.number {
            write!(out, " {name}={}", self.number)?;
        }
        if self.kind.has_edition() {
            write!(out, " edition={}", self.edition)?;
        }
        if form.state {
            write!(out, " {}", registers(&self.state))?;
        }
        if self.bytes.len() != form.size {
            write!(out, " size={}", self.bytes.len())?;
        }
        write_bytes(out, &self.bytes)
    }
}

/// The bytes that aren't zero, as address and up to 16 of them at a time.
fn write_bytes(out: &mut fmt::Formatter, bytes: &[u8]) -> fmt::Result {
    let mut at = 0;
    while at < bytes.len() {
        let rest = bytes[at..].iter().take(16);
        let count = rest.take_while(|byte| **byte != 0).count();
        if count > 0 {
            write!(out, " {at:04X}:{}", hex(&bytes[at..at + count]))?;
        }
        at += count.max(1);
    }
    Ok(())
}

/// Reads what [`Input`]'s text is, word by word.
pub fn parse(words: &[String]) -> Result<Input, String> {
    let (first, rest) = words
        .split_first()
        .ok_or("again: a kind of input is missing")?;
    let form = FORMS.iter().find(|form| form.name == first);
    let form = form.ok_or_else(|| format!("again: no kind of input is called {first}"))?;
    let mut input = Input::new(form.kind, State::default(), 0, vec![0; form.size]);
    for word in rest {
        read_word(form, &mut input, word).ok_or_else(|| format!("again: {word} has no meaning"))?;
    }
    Ok(input)
}

fn read_word(form: &Form, input: &mut Input, word: &str) -> Option<()> {
    if let Some((address, bytes)) = word.split_once(':') {
        return read_bytes(input, address, bytes);
    }
    let (name, value) = word.split_once('=')?;
    if name == "size" {
        // Larger than anything that any judge is lent.
        let size = value.parse().ok().filter(|size| *size <= 1_048_576)?;
        input.bytes = vec![0; size];
    } else if Some(name) == form.number {
        input.number = value.parse().ok()?;
    } else if name == "edition" && form.kind.has_edition() {
        input.edition = value.parse().ok()?;
    } else if form.state {
        read_register(&mut input.state, name, value)?;
    } else {
        return None;
    }
    Some(())
}

fn read_bytes(input: &mut Input, address: &str, text: &str) -> Option<()> {
    let start = usize::from_str_radix(address, 16).ok()?;
    if text.is_empty() || !text.is_ascii() || text.len() & 1 == 1 {
        return None;
    }
    let part = input
        .bytes
        .get_mut(start..start.checked_add(text.len() / 2)?)?;
    for (n, byte) in part.iter_mut().enumerate() {
        *byte = u8::from_str_radix(&text[2 * n..2 * n + 2], 16).ok()?;
    }
    Some(())
}

fn read_register(state: &mut State, name: &str, value: &str) -> Option<()> {
    if name == "ime" {
        state.ime = Ime::from_code(value.parse().ok()?)?;
        return Some(());
    }
    if name == "mode" {
        state.mode = Mode::from_code(value.parse().ok()?)?;
        return Some(());
    }
    let word = u16::from_str_radix(value, 16).ok()?;
    let [high, low] = word.to_be_bytes();
    match name {
        "AF" => (state.a, state.f) = (high, low),
        "BC" => (state.b, state.c) = (high, low),
        "DE" => (state.d, state.e) = (high, low),
        "HL" => (state.h, state.l) = (high, low),
        "SP" => state.sp = word,
        "PC" => state.pc = word,
        _ => return None,
    }
    Some(())
}

#[cfg(test)]
mod tests {
    use super::*;

    fn words(text: &str) -> Vec<String> {
        text.split(' ').map(String::from).collect()
    }

    #[test]
    fn text_reads_back() {
        let state = State {
            a: 1,
            f: 0x2F,
            l: 4,
            sp: 0xFFFE,
            pc: 0x0150,
            ime: Ime::Arming,
            mode: Mode::Repeat,
            ..State::default()
        };
        let mut memory = vec![0; MEMORY_SIZE];
        memory[0x150..0x15A].copy_from_slice(&[1, 2, 3, 0, 5, 6, 7, 8, 9, 10]);
        memory[0xFFF0..].fill(0xAA);
        for input in [
            Input::step(state, memory.clone()),
            Input::run(state, memory.clone(), 77),
            Input::new(Kind::SaveHead, state, 22, Vec::new()),
            Input::run_image(vec![7; IMAGE_SIZE], 100),
            Input::step(state, memory[1..].to_vec()),
            Input::bytes(Kind::Load, vec![9; 24]),
            Input::list(vec![0x20, 0xF8, 0xD3], 0x150, paper::OLD),
            Input::list(Vec::new(), 0xFFFF, u32::MAX),
            Input::assemble(b"LD A,($12)\nNOP\n".to_vec(), 0x150),
            Input::new(Kind::Row, State::default(), 511, Vec::new()),
        ] {
            assert_eq!(parse(&words(&input.to_string())), Ok(input));
        }
    }

    #[test]
    fn words_without_meaning_are_named() {
        for text in [
            "leap",
            "step AF",
            "step AF=12345",
            "step IX=0000",
            "step ime=3",
            "step FFFF:0102",
            "step 0000:1",
            "step 0000:é",
            "step size=99999999999",
            "load AF=0000",
            "row budget=1",
            "row edition=1",
            "assemble edition=1",
            "list edition=-1",
            "list edition=4294967296",
        ] {
            let error = parse(&words(text)).expect_err(text);
            let last = text.split(' ').next_back().expect("a last word");
            assert!(error.contains(last), "{error}");
        }
        assert!(parse(&[]).is_err());
    }
}
