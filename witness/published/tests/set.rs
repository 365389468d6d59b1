//! Test sets that are right, wrong, damaged or not there.

use std::path::{Path, PathBuf};
use std::process::Command;

/// What a call of the runner did.
struct Called {
    status: i32,
    out: String,
    err: String,
}

impl Called {
    fn last_line(&self) -> &str {
        self.out.lines().last().unwrap_or("")
    }

    fn has_line(&self, line: &str) -> bool {
        self.out.lines().any(|other| other == line)
    }
}

fn call(arguments: &[&str]) -> Called {
    let output = Command::new(env!("CARGO_BIN_EXE_published"))
        .args(arguments)
        .output()
        .unwrap();
    Called {
        status: output.status.code().unwrap(),
        out: String::from_utf8(output.stdout).unwrap(),
        err: String::from_utf8(output.stderr).unwrap(),
    }
}

/// The call ends with one line on the error output that holds `part`.
fn in_trouble(arguments: &[&str], part: &str) {
    let called = call(arguments);
    assert_eq!(called.status, 2, "{arguments:?}");
    assert_eq!(called.err.matches('\n').count(), 1, "{:?}", called.err);
    assert!(called.err.ends_with('\n'), "{:?}", called.err);
    assert!(called.err.contains(part), "{:?}", called.err);
}

/// A folder for one test, which does not exist yet.
fn folder(name: &str) -> PathBuf {
    let path = Path::new(env!("CARGO_TARGET_TMPDIR")).join(name);
    if path.exists() {
        std::fs::remove_dir_all(&path).unwrap();
    }
    path
}

/// A folder that holds one file.
fn folder_with(name: &str, file: &str, text: impl AsRef<[u8]>) -> PathBuf {
    let path = folder(name);
    std::fs::create_dir_all(&path).unwrap();
    std::fs::write(path.join(file), text).unwrap();
    path
}

fn run(folder: &Path) -> Called {
    call(&["run", folder.to_str().unwrap()])
}

fn run_by_house(folder: &Path) -> Called {
    call(&["run", folder.to_str().unwrap(), "--house"])
}

/// A machine with A and PC of one's own and all else 0.
fn snapshot(a: u32, pc: u32, more: &str) -> String {
    format!(r#"{{"a":{a},"b":0,"c":0,"d":0,"e":0,"f":0,"h":0,"l":0,"sp":0,"pc":{pc},{more}}}"#)
}

/// A file with one case.
fn file(name: &str, initial: &str, last: &str, cycles: &str) -> String {
    format!(r#"[{{"name":"{name}","initial":{initial},"final":{last},"cycles":{cycles}}}]"#)
}

/// LD [n16],A with A 7 at $0100: byte 7 to $C000, 4 cycles.
fn store_case(final_ram: &str, cycles: &str) -> String {
    let initial = snapshot(7, 256, r#""ime":0,"ram":[[256,234],[257,0],[258,192]]"#);
    let last = snapshot(7, 259, &format!(r#""ime":0,"ram":[{final_ram}]"#));
    file("ea 0000", &initial, &last, cycles)
}

/// STOP at 0, with the A after it and the cycles of one's own.
fn stop_case(a: u32, pc: u32, cycles: u32) -> String {
    let initial = snapshot(7, 0, r#""ime":0,"ram":[[0,16]]"#);
    let last = snapshot(a, pc, r#""ime":0,"ram":[[0,16]]"#);
    file("10 0000", &initial, &last, &cycles.to_string())
}

#[test]
fn cycles_are_a_number_or_a_list() {
    for cycles in ["4", r#"[[1,2,"read"],null,[3,4,"write"],[]]"#] {
        let text = store_case("[49152,7]", cycles);
        let called = run(&folder_with("cycles", "ea.json", text));
        assert!(called.has_line("ea.json: 1 cases, 1 passed, 0 failed"));
        assert_eq!((called.status, &*called.err), (0, ""));
    }
    let text = store_case("[49152,7]", r#"[null,null,null]"#);
    let called = run(&folder_with("cycles", "ea.json", text));
    assert_eq!(called.status, 1);
    assert!(called.has_line("  failed: ea 0000 on second: cycles 4, expected 3"));
}

#[test]
fn a_changed_byte_must_be_listed_and_right() {
    let called = run(&folder_with("unlisted", "ea.json", store_case("", "4")));
    assert_eq!(called.status, 1);
    assert!(called.has_line("  failed: ea 0000 on second: ram 49152 7, expected 0"));
    let text = store_case("[49152,8],[1,2]", "4");
    let called = run(&folder_with("unlisted", "ea.json", text));
    let line = "  failed: ea 0000 on second: ram 1 0, expected 2; ram 49152 7, expected 8";
    assert!(called.has_line(line));
    assert_eq!(
        called.last_line(),
        "total: 1 files, 1 cases, 0 passed, 1 failed"
    );
}

#[test]
fn only_the_first_few_differences_are_told() {
    let initial = snapshot(7, 0, r#""ime":0,"ram":[]"#);
    let last =
        r#"{"a":8,"b":1,"c":1,"d":1,"e":1,"f":16,"h":1,"l":1,"sp":1,"pc":1,"ime":1,"ram":[]}"#;
    let text = file("00 0000", &initial, last, "2");
    let called = run(&folder_with("few", "00.json", text));
    let line = "  failed: 00 0000 on second: cycles 1, expected 2; a 7, expected 8; \
                f 0, expected 16; b 0, expected 1; and 7 more";
    assert!(called.has_line(line), "{}", called.out);
}

#[test]
fn ei_and_ie_are_understood() {
    let initial = snapshot(0, 0, r#""ime":0,"ie":255,"ram":[[0,251]]"#);
    let last = |ei, ie| {
        let more = format!(r#""ime":0,"ei":{ei},"ie":{ie},"ram":[]"#);
        snapshot(0, 1, &more)
    };
    let run_with = |ei, ie| {
        let text = file("fb 0000", &initial, &last(ei, ie), "1");
        run(&folder_with("ei", "fb.json", text))
    };
    assert_eq!(run_with(1, 255).status, 0);
    let called = run_with(0, 255);
    assert!(called.has_line("  failed: fb 0000 on second: ei 1, expected 0"));
    let called = run_with(1, 254);
    assert!(called.has_line("  failed: fb 0000 on second: ram 65535 255, expected 254"));
}

#[test]
fn a_refused_step_fails_with_its_code() {
    let initial = snapshot(0, 0, r#""ime":0,"ram":[[0,211]]"#);
    let text = file("d3 0000", &initial, &initial, "0");
    let called = run(&folder_with("undefined", "d3.json", text));
    assert_eq!(called.status, 1);
    assert!(called.has_line("  failed: d3 0000 on second: code 4, expected 0"));
}

#[test]
fn a_dispatch_is_named_but_not_excused() {
    let initial = snapshot(0, 0, r#""ime":1,"ram":[[65535,1],[65295,1]]"#);
    let last = snapshot(0, 1, r#""ime":1,"ram":[]"#);
    let text = file("00 0000", &initial, &last, "1");
    let called = run_by_house(&folder_with("dispatch", "00.json", text));
    assert_eq!(called.status, 1);
    assert!(called.out.contains("document 01 has a dispatch here"));
}

#[test]
fn house_rules_excuse_only_cycles_and_pc_of_their_rows() {
    let passes = folder_with("house", "10.json", stop_case(7, 2, 1));
    assert_eq!(run(&passes).status, 0);
    let differs = folder_with("house", "10.json", stop_case(7, 1, 2));
    let called = run(&differs);
    assert_eq!(called.status, 1);
    let differences = "10 0000 on second: cycles 1, expected 2; pc 2, expected 1";
    assert!(called.has_line(&format!("  failed: {differences}")));
    let called = run_by_house(&differs);
    assert_eq!(called.status, 0);
    assert!(called.has_line(&format!("  excused: {differences}")));
    assert!(called.out.contains("house rules: in rows 10 (STOP"));
    assert_eq!(
        called.last_line(),
        "total: 1 files, 1 cases, 0 passed, 1 excused, 0 failed"
    );
    let register = folder_with("house", "10.json", stop_case(8, 2, 2));
    assert_eq!(run_by_house(&register).status, 1);
    let other_row = folder_with("house", "ea.json", store_case("[49152,7]", "5"));
    assert_eq!(run_by_house(&other_row).status, 1);
}

#[test]
fn unknown_keys_are_told() {
    let text = store_case("[49152,7]", "4").replace(r#""sp":0"#, r#""sp":0,"wz":9"#);
    let called = run(&folder_with("unknown", "ea.json", text));
    assert_eq!(called.status, 0);
    assert!(called.has_line("not judged, unknown keys: final.wz, initial.wz"));
}

#[test]
fn a_bad_file_is_named_with_the_byte() {
    let good = store_case("[49152,7]", "4");
    let cut = &good[..good.len() - 1];
    let no_pc = good.replacen(r#""pc":256,"#, "", 1);
    let big_a = good.replacen(r#""a":7"#, r#""a":256"#, 1);
    let half_a = good.replacen(r#""a":7"#, r#""a":7.5"#, 1);
    let triple = good.replacen("[256,234]", "[256,234,0]", 1);
    let twice = good.replacen("[257,0]", "[257,0],[257,0],[257,1]", 1);
    let at = |text: &str, part: &str| text.find(part).unwrap();
    let files = [
        (String::new(), 0, "expected a value"),
        ("[]".to_string(), 0, "no case"),
        ("{}".to_string(), 0, "must be a list"),
        ("[1]".to_string(), 1, "must be an object"),
        (cut.to_string(), cut.len(), "expected ']'"),
        (
            no_pc.clone(),
            at(&no_pc, r#"{"a""#),
            "initial.pc is missing",
        ),
        (big_a.clone(), at(&big_a, "256"), "a must be a number"),
        (half_a.clone(), at(&half_a, "7.5"), "a must be a number"),
        (
            triple.clone(),
            at(&triple, "[256"),
            "an address and a value",
        ),
        (
            twice.clone(),
            at(&twice, "[257,1]"),
            "address 257 has two values",
        ),
    ];
    for (text, at, what) in files {
        let folder = folder_with("bad", "ea.json", &text);
        let part = format!("ea.json\" at byte {at}: ");
        in_trouble(&["run", folder.to_str().unwrap()], &part);
        in_trouble(&["run", folder.to_str().unwrap()], what);
    }
    let folder = folder_with("bad", "ea.json", b"[\"\xFF\"]");
    in_trouble(&["run", folder.to_str().unwrap()], "at byte 2: not UTF-8");
}

#[test]
fn a_set_that_is_not_there_is_trouble() {
    let empty = folder_with("empty", "notes.txt", "no set");
    in_trouble(&["run", empty.to_str().unwrap()], "holds no *.json file");
    let absent = folder("absent");
    in_trouble(&["run", absent.to_str().unwrap()], "cannot read");
    std::fs::create_dir_all(absent.join("00.json")).unwrap();
    in_trouble(&["run", absent.to_str().unwrap()], "cannot read");
}

#[test]
fn bad_usage_is_one_line() {
    let out = folder("usage");
    let path = out.to_str().unwrap();
    in_trouble(&[], "usage: ");
    in_trouble(&["run"], "usage: ");
    in_trouble(&["run", path, "--mouse"], "usage: ");
    in_trouble(&["make", path], "usage: ");
    in_trouble(&["make", path, "--seed", "1", "--cases"], "usage: ");
    let seed = |seed| ["make", path, "--seed", seed, "--cases", "1"];
    let cases = |cases| ["make", path, "--seed", "1", "--cases", cases];
    in_trouble(&seed("-1"), "--seed must be");
    in_trouble(&seed("18446744073709551616"), "--seed must be");
    in_trouble(&cases("0"), "--cases must be");
    in_trouble(&cases("100001"), "--cases must be");
    in_trouble(&cases(""), "--cases must be");
    assert!(!out.exists());
}
