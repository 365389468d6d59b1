//! The command line: what it answers, and that bad usage is one line and a status.

use std::path::PathBuf;
use std::process::{Command, Output};

fn compare(arguments: &[&str]) -> Output {
    let mut command = Command::new(env!("CARGO_BIN_EXE_compare"));
    command.args(arguments).output().expect("it starts")
}

fn text(bytes: &[u8]) -> String {
    String::from_utf8(bytes.to_vec()).expect("text")
}

/// A folder of this test's own, not yet there.
fn folder(name: &str) -> PathBuf {
    let folder = std::env::temp_dir().join(format!("compare-{name}-{}", std::process::id()));
    assert!(!folder.exists(), "{}", folder.display());
    folder
}

#[test]
fn bad_usage_is_one_line_and_a_status() {
    for arguments in [
        &["nonsense"][..],
        &["daa", "nonsense"],
        &["--seed"],
        &["--seed", "x"],
        &["--seed", "-1"],
        &["--sead", "1"],
        &["list", "daa"],
        &["again"],
        &["again", "leap"],
        &["again", "step", "AF=10000"],
        &["again", "row", "row=-1"],
        &["again", "list", "first=-1"],
        &["again", "list", "edition=-1"],
        &["again", "assemble", "first=-1"],
        &["again", "assemble", "edition=1"],
        &["inputs"],
        &["inputs", ""],
        &["inputs", "a", "b"],
        &["inputs", "/dev/null"],
        &["inputs", "/dev/null/x"],
        &["workloads"],
        &["workloads", "/nowhere"],
        &["workloads", "/dev/null"],
        &["workloads", "/dev/zero"],
    ] {
        let output = compare(arguments);
        assert_eq!(output.status.code(), Some(2), "{arguments:?}");
        assert_eq!(text(&output.stderr).lines().count(), 1, "{arguments:?}");
        assert!(output.stdout.is_empty(), "{arguments:?}");
    }
}

#[test]
fn list_names_what_can_be_run() {
    let listed = text(&compare(&["list"]).stdout);
    let names: Vec<&str> = listed
        .lines()
        .filter_map(|line| line.split(' ').next())
        .collect();
    assert_eq!(names.len(), 35);
    let output = compare(&["--seed", "7", "daa", names[0]]);
    assert!(output.status.success());
    let printed = text(&output.stdout);
    assert!(printed.starts_with("seed 7\n"), "{printed}");
    let last = printed.lines().last().expect("a last line");
    let wanted = "total: 2 comparisons, 4108 inputs (second 4108, mgba 4108, ";
    assert!(
        last.starts_with(wanted) && last.ends_with(", 0 failed"),
        "{last}"
    );
}

#[test]
fn an_excuse_that_was_not_needed_is_reported() {
    let printed = text(&compare(&["daa"]).stdout);
    assert_eq!(printed.matches("NEVER NEEDED").count(), 2, "{printed}");
    let printed = text(&compare(&["sequences"]).stdout);
    assert_eq!(printed.matches("NEVER NEEDED").count(), 0, "{printed}");
}

#[test]
fn again_judges_one_input() {
    let agreed = compare(&["again", "step", "AF=9A00", "0000:27"]);
    assert!(agreed.status.success());
    assert!(text(&agreed.stdout).contains("mGBA"));
    for edition in ["edition=1", "edition=2", "edition=3"] {
        let words = ["again", "list", "first=336", edition, "size=1", "0000:22"];
        let part = compare(&words);
        assert!(part.status.success());
        assert!(text(&part.stdout).contains("the second program"));
    }
    let words = [
        "again",
        "assemble",
        "first=336",
        "size=5",
        "0000:444220350A",
    ];
    assert!(compare(&words).status.success());
    let far = compare(&["again", "list", "first=65536"]);
    assert_eq!(far.status.code(), Some(1));
    let judged_by_none = compare(&["again", "adding"]);
    assert_eq!(judged_by_none.status.code(), Some(1));
}

/// A counter that goes on for ever; and a game that stops, whose end is agreed on too.
#[test]
fn saved_images_are_run_by_every_judge() {
    let folder = folder("workloads");
    std::fs::create_dir(&folder).expect("a folder");
    let programs: [(&str, &[u8]); 2] = [
        ("counter", &[0x34, 0x18, 0xFD]),
        ("stops", &[0x3C, 0x10, 0x00]),
    ];
    for (name, code) in programs {
        let mut memory = vec![0; second::MEMORY_SIZE];
        memory[..code.len()].copy_from_slice(code);
        let mut image = vec![0; second::IMAGE_SIZE];
        let state = second::State {
            h: 0xC0,
            ..second::State::default()
        };
        assert_eq!(second::save_image(state, &memory, &mut image), 0);
        let file = folder.join(name);
        std::fs::write(&file, &image).expect("an image");
        let output = compare(&["workloads", file.to_str().expect("a plain path")]);
        assert!(output.status.success());
        let line = text(&output.stdout);
        let line = line.lines().last().expect("a line");
        assert!(line.starts_with(name) && line.contains(" ok "), "{line}");
    }
    std::fs::remove_dir_all(&folder).expect("the folder goes");
}

#[test]
fn inputs_come_in_pairs_with_the_answers_of_the_second_program() {
    let folder = folder("inputs");
    let output = compare(&["inputs", folder.to_str().expect("a plain path")]);
    assert!(output.status.success());
    let mut inputs = 0;
    for entry in std::fs::read_dir(&folder).expect("the folder is there") {
        let path = entry.expect("an entry").path();
        if path.extension() == Some("in".as_ref()) {
            let input = std::fs::read(&path).expect("an input");
            let answer = std::fs::read_to_string(path.with_extension("out")).expect("an answer");
            assert_eq!(answer, second::program(&input), "{}", path.display());
            inputs += 1;
        }
    }
    std::fs::remove_dir_all(&folder).expect("the folder goes");
    assert_eq!(
        text(&output.stdout),
        format!("{inputs} inputs and answers written\n")
    );
    assert!(inputs > 40, "{inputs}");
}
