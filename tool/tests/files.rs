mod common;

use std::fs;
use std::os::unix::fs::{symlink, PermissionsExt};

use common::*;

const OLD: &[u8] = b"the save of last week";

fn bench(name: &str) -> Bench {
    let bench = Bench::new(name);
    bench.put("dump", &worked_memory());
    bench.put("in", &image(&WORKED_HEAD, &worked_memory()));
    bench.put("old", OLD);
    bench
}

fn mode(bench: &Bench, name: &str) -> u32 {
    fs::metadata(bench.0.join(name))
        .unwrap()
        .permissions()
        .mode()
        & 0o7777
}

#[test]
fn never_over_a_file_unless_asked() {
    let bench = bench("asked");
    let before = bench.get("in");
    for line in [
        "make old --dump dump",
        "run in 30 old",
        "run in 30 in",
        "run in 30 ./in",
        "make dump --dump dump",
        "export in old",
        "import in dump old",
        "list in --out old",
        "list in --out in",
    ] {
        bench.tool(line).wrote_nothing("--replace");
    }
    assert_eq!(bench.get("old"), OLD);
    assert_eq!(bench.get("in"), before);
    assert_eq!(bench.get("dump"), worked_memory());

    bench.tool("make old --dump dump --replace").done();
    assert_eq!(bench.get("old").len(), 65_559);
    bench.tool("run in 30 in --replace").done();
    assert_eq!(bench.get("in"), worked_after());
    bench.tool("run in 0 new --replace").done();
    assert_eq!(bench.get("new"), bench.get("in"));
    assert_eq!(bench.names(), ["dump", "in", "new", "old"]);
}

#[test]
fn who_may_read_it_stays() {
    let bench = bench("permissions");
    for bits in [0o600, 0o640, 0o4750, 0o666] {
        fs::set_permissions(bench.0.join("old"), fs::Permissions::from_mode(bits)).unwrap();
        bench.tool("run in 30 old --replace").done();
        assert_eq!(mode(&bench, "old"), bits);
    }
    fs::set_permissions(bench.0.join("old"), fs::Permissions::from_mode(0o444)).unwrap();
    let kept = bench.get("old");
    bench
        .tool("run in 0 old --replace")
        .wrote_nothing("write-protected");
    assert_eq!(bench.get("old"), kept);
}

#[test]
fn links_folders_and_devices() {
    let bench = bench("links");
    symlink("old", bench.0.join("link")).unwrap();
    symlink("nowhere", bench.0.join("dangling")).unwrap();
    symlink("loop-b", bench.0.join("loop-a")).unwrap();
    symlink("loop-a", bench.0.join("loop-b")).unwrap();
    // No device of the machine is ever named as OUT here: a tool that has lost its guard would
    // replace it. A pipe stands for what is no ordinary file.
    bench.shell("mkfifo pipe").silent(0);
    fs::create_dir(bench.0.join("folder")).unwrap();
    let before = bench.names();
    bench.tool("run in 30 link").wrote_nothing("--replace");
    for option in ["", " --replace"] {
        for (name, words) in [
            ("dangling", "a link to nothing"),
            ("pipe", "a pipe, so not replaced"),
            ("folder", "a folder, so not replaced"),
            ("loop-a", "a loop of links"),
            ("absent/out", "there is no such folder"),
            ("in/out", "a part of its path is no folder"),
            ("folder/..", "a folder"),
        ] {
            let line = format!("run in 30 {name}{option}");
            bench.tool(&line).wrote_nothing(words);
        }
    }
    bench.tool("run in 30 link --replace").done();
    assert_eq!(bench.get("old"), worked_after());
    let link = fs::symlink_metadata(bench.0.join("link")).unwrap();
    assert!(link.file_type().is_symlink());
    assert_eq!(bench.names(), before);
}

#[test]
fn what_is_no_file_is_not_read() {
    let bench = bench("unread");
    symlink("loop", bench.0.join("loop")).unwrap();
    // Nobody writes to it: to open it would be to wait for ever.
    bench.shell("mkfifo pipe").silent(0);
    fs::create_dir(bench.0.join("folder")).unwrap();
    for (name, words) in [
        ("absent", "absent: there is no such file"),
        ("folder", "folder: a folder, no file"),
        ("pipe", "pipe: a pipe, no file"),
        ("/dev/zero", "/dev/zero: a device, no file"),
        ("loop", "loop: a loop of links"),
        ("in/in", "in/in: a part of its path is no folder"),
    ] {
        bench.tool(&format!("show {name}")).failed(words);
        bench.tool(&format!("check {name}")).failed(words);
        bench.tool(&format!("compare in {name}")).failed(words);
        bench.tool(&format!("list {name}")).failed(words);
        bench
            .tool(&format!("list --part {name} --from 0"))
            .failed(words);
        let judged = bench.tool(&format!("judge in 30 {name}"));
        assert_eq!(judged.exit, Some(2));
        judged.complained(words);
        for line in [
            format!("run {name} 30 out"),
            format!("make out --dump {name}"),
            format!("make out --cartridge {name}"),
            format!("export {name} out"),
            format!("import in {name} out"),
            format!("wake {name} out"),
            format!("list {name} --out out"),
        ] {
            bench.tool(&line).wrote_nothing(words);
        }
    }
}

/// No file may grow beyond 8 blocks, as on a disk that is full. It is said before the run: this one
/// would take days.
#[test]
fn a_full_disk() {
    let bench = bench("full");
    let full = "trap '' XFSZ; ulimit -f 8; exec timeout 30 \"$TOOL\"";
    let before = bench.get("in");
    for line in [
        "make old --dump dump --replace",
        "run in 99999999999999 old --replace",
        "run in 99999999999999 in --replace",
        "run in 99999999999999 new",
        "export in new",
        "list in --bytes 0..FFFF --out new",
        "list in --bytes 0..FFFF --out old --replace",
    ] {
        bench
            .shell(&format!("{full} {line}"))
            .wrote_nothing("File too large");
        assert_eq!(bench.get("old"), OLD);
        assert_eq!(bench.get("in"), before);
        assert_eq!(bench.names(), ["dump", "in", "old"]);
    }
}

/// Ended by a signal in the middle of the write: only the draft is left.
#[test]
fn killed() {
    let bench = bench("killed");
    let before = bench.get("in");
    let ended = bench.shell("ulimit -c 0; ulimit -f 8; exec \"$TOOL\" run in 30 in --replace");
    assert_eq!(ended.exit, None, "{ended:?}");
    assert_eq!(bench.get("in"), before);
    let left = bench.names();
    assert_eq!(left[1..], ["dump", "in", "old"]);
    assert!(left[0].starts_with(".trnadulek-") && left[0].ends_with(".part"));
    bench.tool("run in 30 in --replace").done();
    assert_eq!(bench.get("in"), worked_after());
}

/// A run that would take days, asked to end after three seconds; timeout answers 124 then.
const LONG: &str = "timeout --foreground 3 \"$TOOL\" run in 99999999999999 new";

/// The worked example goes on among NOPs after its return, for as long as one likes.
#[test]
fn progress_where_a_person_watches() {
    let bench = bench("watched");
    let watched = bench.shell(&format!("script -qefc '{LONG}' /dev/null < /dev/null"));
    assert_eq!(watched.exit, Some(124), "{watched:?}");
    assert!(watched.out.starts_with("\r  0%  "), "{watched:?}");
    assert!(watched.out.contains(" of 99,999,999,999,999 cycles"));
    assert_eq!(bench.names(), ["dump", "in", "old"]);
}

/// Without a person there is no progress, and the last line says that nothing was written.
#[test]
fn interrupted() {
    let bench = bench("interrupted");
    let ended = bench.shell(LONG);
    assert_eq!((ended.exit, ended.out.as_str()), (Some(124), ""));
    ended.complained("trnadulek-tool: interrupted after ");
    assert!(
        ended.err.ends_with(" steps; nothing was written\n"),
        "{ended:?}"
    );
    assert_eq!(bench.names(), ["dump", "in", "old"]);
}

/// The draft is there while the run goes on, and a signal that was ignored stays so.
#[test]
fn the_draft_is_made_first() {
    let bench = bench("first");
    let line = "trap '' HUP; \"$TOOL\" run in 99999999999999 new 2> said & tool=$!; \
                for try in $(seq 300); do ls -A | grep -q part && break; sleep 0.1; done; \
                kill -HUP $tool; sleep 1; ls -A; kill -TERM $tool; wait $tool; echo \"$?\"";
    let seen = bench.shell(line).done();
    let lines: Vec<_> = seen.lines().collect();
    assert!(lines[0].starts_with(".trnadulek-") && lines[0].ends_with(".part"));
    assert_eq!(lines[1..], ["dump", "in", "old", "said", "2"]);
    let said = String::from_utf8(bench.get("said")).unwrap();
    assert!(said.ends_with("; nothing was written\n"), "{said}");
    assert_eq!(bench.names(), ["dump", "in", "old", "said"]);
}

#[test]
fn standard_output_that_fails() {
    let bench = bench("stdout");
    let answer = bench.shell("exec \"$TOOL\" show in > /dev/full");
    answer.failed("standard output");
    let answer = bench.shell("exec \"$TOOL\" list in > /dev/full");
    answer.failed("standard output");
    let answer = bench.shell("exec \"$TOOL\" run in 30 out > /dev/full");
    answer.failed("; ran 30 cycles in 16 steps, wrote out\n");
    assert_eq!(bench.get("out"), worked_after());
    let answer = bench.shell("\"$TOOL\" show in | true");
    assert_eq!((answer.exit, answer.err.as_str()), (Some(0), ""));
}

#[test]
fn names_that_look_like_options_or_are_odd() {
    let bench = bench("names");
    bench.tool("run in 30 -- -out").done();
    assert_eq!(bench.tool("check -- -out").done(), "-out: a valid image\n");
    bench.call(&["run", "in", "30", "two words"]).done();
    bench.call(&["check", "two\nlines"]).failed("two?lines");
    bench.tool("run in 30 -").failed("./- is one");
    bench.tool("run in 30 ./-").done();
    assert_eq!(bench.get("-"), worked_after());
}
