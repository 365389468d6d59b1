//! The binary: what it prints, what it writes, and how it refuses.

mod common;

use common::memory;
use second::{open_image, save_image, State};
use std::io::Write;
use std::path::{Path, PathBuf};
use std::process::{Command, Output, Stdio};

/// What a call of the binary did.
struct Called {
    status: i32,
    out: String,
    err: String,
}

fn call(arguments: &[&str], input: &[u8]) -> Called {
    let output = call_for_bytes(arguments, input);
    Called {
        status: output.status.code().unwrap(),
        out: String::from_utf8(output.stdout).unwrap(),
        err: String::from_utf8(output.stderr).unwrap(),
    }
}

fn call_for_bytes(arguments: &[&str], input: &[u8]) -> Output {
    let mut child = Command::new(env!("CARGO_BIN_EXE_second"))
        .args(arguments)
        .stdin(Stdio::piped())
        .stdout(Stdio::piped())
        .stderr(Stdio::piped())
        .spawn()
        .unwrap();
    // A command that reads no input may be gone before it is all written.
    let _ = child.stdin.take().unwrap().write_all(input);
    child.wait_with_output().unwrap()
}

/// The call prints `out`, and nothing else.
fn answers(arguments: &[&str], out: &str) {
    let called = call(arguments, &[]);
    assert_eq!(
        (called.status, &*called.out, &*called.err),
        (0, out, ""),
        "{arguments:?}"
    );
}

/// The call fails with one line that holds `part`, and prints no answer.
fn fails(arguments: &[&str], status: i32, part: &str) {
    let called = call(arguments, &[]);
    assert_eq!((called.status, &*called.out), (status, ""), "{arguments:?}");
    assert!(is_one_line(&called.err), "{:?}", called.err);
    assert!(called.err.contains(part), "{:?}", called.err);
}

fn is_one_line(text: &str) -> bool {
    text.ends_with('\n') && text.matches('\n').count() == 1
}

/// A new folder for the files of one test.
struct Folder(PathBuf);

impl Folder {
    fn new(name: &str) -> Self {
        let path = Path::new(env!("CARGO_TARGET_TMPDIR")).join(name);
        if path.exists() {
            std::fs::remove_dir_all(&path).unwrap();
        }
        std::fs::create_dir_all(&path).unwrap();
        Folder(path)
    }

    fn path(&self, name: &str) -> String {
        self.0.join(name).to_str().unwrap().to_string()
    }

    fn put(&self, name: &str, bytes: &[u8]) -> String {
        std::fs::write(self.0.join(name), bytes).unwrap();
        self.path(name)
    }

    fn read(&self, name: &str) -> Vec<u8> {
        std::fs::read(self.0.join(name)).unwrap()
    }

    fn has(&self, name: &str) -> bool {
        self.0.join(name).exists()
    }
}

fn image(state: State, memory: &[u8]) -> Vec<u8> {
    let mut image = vec![0; 65_559];
    assert_eq!(save_image(state, memory, &mut image), 0);
    image
}

/// INC A, then [HL] gets A, then an undefined byte; HL is $C000.
fn small() -> Vec<u8> {
    let state = State {
        h: 0xC0,
        ..State::default()
    };
    image(state, &memory(&[(0, &[0x3C, 0x77, 0xD3])]))
}

#[test]
fn program_answers_whatever_it_is_given() {
    let called = call(&["program"], &[0; 65_562]);
    let out = "code spent steps AF BC DE HL SP PC ime mode\n6\n";
    assert_eq!((called.status, &*called.out), (0, out));
    let image = small();
    let input = [&[0, 0, 0, 1], &image[..]].concat();
    let line = "0 1 1 0100 0000 0000 C000 0000 0001 0 0\n";
    assert!(call(&["program"], &input).out.ends_with(line));
    let longer = [&input[..], &[0; 100_000]].concat();
    assert_eq!(call(&["program"], &longer).out, out);
}

#[test]
fn table_has_512_rows() {
    let out = call(&["table"], &[]).out;
    let rows: Vec<_> = out.lines().collect();
    assert_eq!(rows.len(), 512);
    assert_eq!((rows[0x08], rows[0x10]), ("8 3 5", "16 2 1"));
    assert_eq!((rows[0xCB], rows[0xCD]), ("203 0 0", "205 3 6"));
    assert_eq!(rows[256 + 0x46], "326 2 3");
}

#[test]
fn step_writes_a_new_image() {
    let folder = Folder::new("step");
    let file = folder.put("image", &small());
    answers(&["step", &file, &folder.path("one")], "0 1\n");
    answers(&["step", &folder.path("one"), &folder.path("two")], "0 2\n");
    let two = folder.read("two");
    let (code, state, memory) = open_image(&two);
    assert_eq!((code, state.a, state.pc, memory[0xC000]), (0, 1, 2, 1));
    let third = ["step", &folder.path("two"), &folder.path("three")];
    fails(&third, 1, "refused with 4: ");
    assert!(!folder.has("three"));
}

#[test]
fn run_keeps_the_steps_before_a_refused_one() {
    let folder = Folder::new("run");
    let file = folder.put("image", &small());
    answers(&["run", &file, "2", &folder.path("two")], "0 3 2\n");
    let called = call(&["run", &file, "100", &folder.path("all")], &[]);
    assert_eq!((called.status, &*called.out), (1, "4 3 2\n"));
    assert!(is_one_line(&called.err) && called.err.contains("refused with 4: "));
    assert_eq!(folder.read("all"), folder.read("two"));
    let too_much = ["run", &file, "1048577", &folder.path("none")];
    fails(&too_much, 1, "refused with 5: ");
    assert!(!folder.has("none"));
}

#[test]
fn an_existing_file_is_never_written() {
    let folder = Folder::new("existing");
    let file = folder.put("image", &small());
    let kept = folder.put("kept", b"kept");
    fails(&["step", &file, &kept], 2, "cannot make");
    fails(&["run", &file, "1", &kept], 2, "cannot make");
    let zeros = ["0"; 8];
    fails(&[&["save", &kept], &zeros[..]].concat(), 2, "cannot make");
    assert_eq!(folder.read("kept"), b"kept");
}

#[test]
fn load_shows_a_head_or_an_image() {
    let folder = Folder::new("load");
    let image = small();
    let shown = "code AF BC DE HL SP PC ime mode\n0 0000 0000 0000 C000 0000 0000 0 0\n";
    answers(&["load", &folder.put("image", &image)], shown);
    answers(&["load", &folder.put("head", &image[..23])], shown);
    let short = folder.put("short", &image[..22]);
    fails(&["load", &short], 1, "refused with 6: ");
    let mut other = image.clone();
    other[0] = 2;
    let other = folder.put("other", &other);
    fails(&["load", &other], 1, "refused with 7: ");
}

#[test]
fn save_writes_what_load_shows() {
    let folder = Folder::new("save");
    let registers = ["12F0", "3456", "789a", "bC", "dEf0", "1", "2", "3"];
    let head = folder.path("head");
    answers(&[&["save", &head], &registers[..]].concat(), "0\n");
    assert_eq!(folder.read("head").len(), 23);
    let shown = "code AF BC DE HL SP PC ime mode\n0 12F0 3456 789A 00BC DEF0 0001 2 3\n";
    answers(&["load", &head], shown);
    let bytes: Vec<u8> = (0..65_536_u32).map(|n| (n >> 3) as u8).collect();
    let memory = folder.put("memory", &bytes);
    let whole = folder.path("image");
    answers(
        &[&["save", &whole], &registers[..], &[&memory]].concat(),
        "0\n",
    );
    answers(&["load", &whole], shown);
    assert_eq!(folder.read("image")[23..], bytes);
}

#[test]
fn save_refuses_what_no_saved_form_holds() {
    let folder = Folder::new("refused");
    let out = folder.path("out");
    let save = |af, ime, mode, rest: &[&str]| {
        let arguments = ["save", &out, af, "0", "0", "0", "0", "0", ime, mode];
        call(&[&arguments[..], rest].concat(), &[])
    };
    let short = folder.put("short", &[0; 65_535]);
    let long = folder.put("long", &[0; 70_000]);
    assert!(save("0001", "0", "0", &[]).err.contains("refused with 2: "));
    for file in [&short, &long] {
        let called = save("0000", "0", "0", &[file]);
        assert!(called.err.contains("refused with 1: "));
    }
    for bad in [
        save("10000", "0", "0", &[]),
        save("+1", "0", "0", &[]),
        save("", "0", "0", &[]),
        save("0", "3", "0", &[]),
        save("0", "0", "4", &[]),
        save("0", "0", "0", &[&short, &short]),
    ] {
        assert_eq!((bad.status, &*bad.out), (2, ""));
        assert!(is_one_line(&bad.err), "{:?}", bad.err);
    }
    assert!(!folder.has("out"));
}

#[test]
fn list_prints_the_standard_input_as_a_listing() {
    let called = call(&["list", "0150", "2"], &[0x20, 0xF8, 0xD3]);
    let out = "0150 20F8 JR NZ,$014A\n0152 D3 DB $D3\n";
    assert_eq!((called.status, &*called.out), (0, out));
    answers(&["list", "FFFF", "1"], "");
    let longer = call(&["list", "fFfF", "2"], &[0x00; 70_000]);
    assert_eq!((longer.status, longer.out.lines().count()), (0, 70_000));
    assert!(longer.out.starts_with("FFFF 00 NOP\n0000 00 NOP\n"));
}

#[test]
fn list_takes_either_edition_and_no_other() {
    let in_edition = |number| call(&["list", "0150", number], &[0x22, 0xF0, 0x80]).out;
    assert_eq!(
        in_edition("1"),
        "0150 22 LDI [HL],A\n0151 F080 LDIO A,[$FF80]\n"
    );
    assert_eq!(
        in_edition("2"),
        "0150 22 LD [HLI],A\n0151 F080 LDH A,[$FF80]\n"
    );
    for number in ["0", "3", "257", "4294967295"] {
        fails(&["list", "0150", number], 1, "refused with 11: ");
    }
}

#[test]
fn assemble_prints_the_bytes_of_the_standard_input() {
    let output = call_for_bytes(&["assemble", "0150"], b"JR NZ,$014A\nDB $D3\n");
    assert!(output.status.success() && output.stderr.is_empty());
    assert_eq!(output.stdout, [0x20, 0xF8, 0xD3]);
    answers(&["assemble", "fFfF"], "");
    let longer = call_for_bytes(&["assemble", "0"], &b"NOP\n".repeat(70_000));
    assert_eq!(longer.stdout, [0x00; 70_000]);
}

#[test]
fn assemble_tells_the_line_at_fault() {
    let deep = format!("NOP\nDB {}5{}\n", "(".repeat(17), ")".repeat(17));
    for (text, told) in [
        ("nop\n", "line 1 is refused with 12: "),
        ("NOP\nNOP", "line 2 is refused with 12: "),
        (&deep, "line 2 is refused with 13: "),
        ("NOP\nNOP\nDB 256\nx\n", "line 3 is refused with 14: "),
    ] {
        let called = call(&["assemble", "0150"], text.as_bytes());
        assert_eq!((called.status, &*called.out), (1, ""));
        assert!(is_one_line(&called.err), "{:?}", called.err);
        assert!(called.err.contains(told), "{:?}", called.err);
    }
}

#[test]
fn bad_usage_is_one_line() {
    let folder = Folder::new("usage");
    let file = folder.put("image", &small());
    let out = folder.path("out");
    fails(&[], 2, "usage: ");
    fails(&["walk"], 2, "usage: ");
    fails(&["table", "1"], 2, "usage: ");
    fails(&["step", &file], 2, "usage: ");
    fails(&["run", &file, &out], 2, "usage: ");
    fails(&["run", &file, "-1", &out], 2, "BUDGET");
    fails(&["run", &file, "4294967296", &out], 2, "BUDGET");
    fails(&["list"], 2, "usage: ");
    fails(&["list", "0"], 2, "usage: ");
    fails(&["list", "0", "2", "2"], 2, "usage: ");
    fails(&["list", "10000", "2"], 2, "FIRST");
    fails(&["list", "+1", "2"], 2, "FIRST");
    fails(&["list", "", "2"], 2, "FIRST");
    fails(&["list", "0", ""], 2, "EDITION");
    fails(&["list", "0", "old"], 2, "EDITION");
    fails(&["list", "0", "4294967297"], 2, "EDITION");
    fails(&["assemble"], 2, "usage: ");
    fails(&["assemble", "0", "2"], 2, "usage: ");
    fails(&["assemble", "10000"], 2, "FIRST");
    fails(&["assemble", "-1"], 2, "FIRST");
    fails(&["load", &folder.path("absent")], 2, "cannot read");
    fails(&["load", &folder.path("")], 2, "cannot read");
    assert!(!folder.has("out"));
}
