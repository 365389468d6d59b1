//! Disks that are full or can only be read, and files of other users. What the machine does not
//! allow is said and not tried.

mod common;

use std::fs;
use std::os::unix::fs::{symlink, MetadataExt, PermissionsExt};
use std::path::PathBuf;
use std::process::{self, Command};

use common::*;

/// A run that would take days: what is said of its folder is said before it.
const LONG: &str = "timeout 30 \"$TOOL\" run in 99999999999999";

/// Runs a script where `disk` is a disk of its own with so much room, and `in` lies on it. Nobody
/// else sees that disk, and it goes with the script.
fn on_disk(bench: &Bench, kibibytes: u32, script: &str) -> Option<Answer> {
    fs::create_dir_all(bench.0.join("disk")).unwrap();
    bench.put("in", &image(&WORKED_HEAD, &worked_memory()));
    let mount = format!("mount -t tmpfs -o size={kibibytes}k tmpfs disk");
    let unshare = ["unshare -m", "unshare -rm"]
        .into_iter()
        .find(|unshare| bench.shell(&format!("{unshare} {mount}")).exit == Some(0))?;
    let script = format!("{mount} && cp in disk && cd disk && {{ {script}; }}");
    bench.put("script", script.as_bytes());
    Some(bench.shell(&format!("{unshare} sh script")))
}

const NO_DISK: &str = "no disk can be mounted";

/// An image takes 17 pages of 4 KiB: 68 KiB are one, and there is no room for two.
#[test]
fn a_small_disk() {
    let bench = Bench::new("small");
    let script = format!(
        "{LONG} out; echo $?; {LONG} in --replace; echo $?; ls -A; \
         cmp in ../in && echo unchanged; \"$TOOL\" export in part --bytes C000..C001; ls -A"
    );
    match on_disk(&bench, 100, &script) {
        None => not_possible("a_small_disk", NO_DISK),
        Some(answer) => {
            let full = "there is no room left on the disk; nothing was written\n";
            assert_eq!(
                answer.err,
                format!("trnadulek-tool: out: {full}trnadulek-tool: in: {full}")
            );
            assert_eq!(
                answer.out,
                "2\n2\nin\nunchanged\nexported $C000-$C001, 2 bytes, wrote part\nin\npart\n"
            );
        }
    }
}

/// Room for two: a save is replaced, and a third file does not fit.
#[test]
fn a_disk_for_two() {
    let bench = Bench::new("two");
    let script = "\"$TOOL\" run in 30 in --replace; \"$TOOL\" run in 0 out; \
                  \"$TOOL\" run in 0 more; ls -A; \"$TOOL\" compare in out";
    match on_disk(&bench, 150, script) {
        None => not_possible("a_disk_for_two", NO_DISK),
        Some(answer) => {
            answer.complained("more: there is no room left on the disk; nothing was written");
            assert_eq!(
                answer.out,
                "ran 30 cycles in 16 steps, wrote in\nran 0 cycles in 0 steps, wrote out\n\
                 in\nout\nthe same\n"
            );
        }
    }
}

/// The room is taken before the run: what fills the disk meanwhile does not cost the steps.
#[test]
fn a_disk_that_fills_up_meanwhile() {
    let bench = Bench::new("meanwhile");
    // JR to itself, 3 cycles a step, for long enough to fill a small disk in that time.
    let turning = image(&WORKED_HEAD, &memory(&[(0x0150, &[0x18, 0xFE])]));
    bench.put("turning", &turning);
    let script = "\"$TOOL\" run ../turning 600000000 out & tool=$!; \
                  for try in $(seq 1000); do ls -A | grep -q part && break; sleep 0.02; done; \
                  cat /dev/zero > rest 2> /dev/null; ls -A | grep -c part; \
                  wait $tool; echo $?; ls -A";
    match on_disk(&bench, 150, script) {
        None => not_possible("a_disk_that_fills_up_meanwhile", NO_DISK),
        Some(answer) => {
            assert_eq!(answer.err, "");
            assert_eq!(
                answer.out,
                "1\nran 600,000,000 cycles in 200,000,000 steps, wrote out\n0\nin\nout\nrest\n"
            );
        }
    }
}

#[test]
fn a_disk_that_can_only_be_read() {
    let bench = Bench::new("only-read");
    let script = format!(
        "mount -o remount,ro . && {LONG} out; {LONG} in --replace; \
         \"$TOOL\" check in; ls -A"
    );
    match on_disk(&bench, 150, &script) {
        None => not_possible("a_disk_that_can_only_be_read", NO_DISK),
        Some(answer) => {
            let lines: Vec<_> = answer.err.lines().collect();
            assert_eq!(lines.len(), 2, "{answer:?}");
            for line in lines {
                let ending = "the disk can only be read; nothing was written";
                assert!(line.ends_with(ending), "{answer:?}");
            }
            assert_eq!(answer.out, "in: a valid image\nin\n");
        }
    }
}

/// The user and the group that stand for somebody else.
const NOBODY: u32 = 65_534;

/// A folder that other users reach, with a tool that they can call; none where the test is not run
/// by the one user who can become another.
struct Shared(PathBuf);

impl Shared {
    fn new(name: &str) -> Option<Self> {
        let folder = std::env::temp_dir().join(format!("trnadulek-{name}-{}", process::id()));
        let _ = fs::remove_dir_all(&folder);
        fs::create_dir_all(folder.join("files")).unwrap();
        let shared = Shared(folder);
        fs::copy(TOOL, shared.0.join("tool")).unwrap();
        for path in ["", "tool", "files"] {
            fs::set_permissions(shared.0.join(path), fs::Permissions::from_mode(0o755)).unwrap();
        }
        let answer = shared.as_nobody("\"$TOOL\" --version");
        (answer.exit == Some(0)).then_some(shared)
    }

    fn put(&self, name: &str, bytes: &[u8], owner: u32, group: u32, mode: u32) {
        let path = self.0.join("files").join(name);
        fs::write(&path, bytes).unwrap();
        let chown = Command::new("chown")
            .arg(format!("{owner}:{group}"))
            .arg(&path)
            .status();
        assert!(chown.unwrap().success());
        fs::set_permissions(&path, fs::Permissions::from_mode(mode)).unwrap();
    }

    /// Owner, group and mode.
    fn belongs(&self, name: &str) -> (u32, u32, u32) {
        let found = fs::metadata(self.0.join("files").join(name)).unwrap();
        (found.uid(), found.gid(), found.mode() & 0o7777)
    }

    fn get(&self, name: &str) -> Vec<u8> {
        fs::read(self.0.join("files").join(name)).unwrap()
    }

    fn open_to_all(&self) {
        let files = self.0.join("files");
        fs::set_permissions(files, fs::Permissions::from_mode(0o777)).unwrap();
    }

    fn shell(&self, user: &[&str], line: &str) -> Answer {
        let mut command = Command::new("sh");
        command.args(["-c", "exec \"$@\"", "sh"]).args(user);
        command.args(["sh", "-c", line]);
        command.env("TOOL", self.0.join("tool"));
        Answer::new(command.current_dir(self.0.join("files")).output())
    }

    fn as_nobody(&self, line: &str) -> Answer {
        let user = [
            "setpriv",
            "--reuid=65534",
            "--regid=65534",
            "--clear-groups",
        ];
        self.shell(&user, line)
    }

    fn as_root(&self, line: &str) -> Answer {
        self.shell(&["env"], line)
    }
}

impl Drop for Shared {
    fn drop(&mut self) {
        let _ = fs::remove_dir_all(&self.0);
    }
}

const NO_USER: &str = "this user cannot become another";

fn start() -> Vec<u8> {
    image(&WORKED_HEAD, &worked_memory())
}

#[test]
fn a_folder_and_a_file_of_another_user() {
    let shared = match Shared::new("folder") {
        None => return not_possible("a_folder_and_a_file_of_another_user", NO_USER),
        Some(shared) => shared,
    };
    shared.put("in", &start(), 0, 0, 0o644);
    shared.put("secret", &start(), 0, 0, 0o600);
    shared
        .as_nobody(&format!("{LONG} out"))
        .wrote_nothing("out: its folder takes no new file: this user has no permission for that");
    shared
        .as_nobody("\"$TOOL\" show secret")
        .failed("secret: this user has no permission for that");
    shared
        .as_nobody(&format!("{LONG} in --replace"))
        .wrote_nothing("in: this user has no permission for that");
    assert_eq!(shared.get("in"), start());
}

/// A file that everybody may write, in a folder that everybody may write: it could be replaced, but
/// not with its owner or its group.
#[test]
fn an_owner_that_cannot_be_kept() {
    let shared = match Shared::new("unkept") {
        None => return not_possible("an_owner_that_cannot_be_kept", NO_USER),
        Some(shared) => shared,
    };
    shared.open_to_all();
    for (owner, group) in [(0, 0), (0, NOBODY), (NOBODY, 0)] {
        shared.put("in", &start(), owner, group, 0o666);
        let words = format!(
            "in: user {owner}, group {group} and mode 666 cannot be kept by this user, so not \
             replaced"
        );
        shared
            .as_nobody(&format!("{LONG} in --replace"))
            .wrote_nothing(&words);
        assert_eq!(shared.get("in"), start());
        assert_eq!(shared.belongs("in"), (owner, group, 0o666));
    }
    let left = fs::read_dir(shared.0.join("files")).unwrap().count();
    assert_eq!(left, 1);
}

#[test]
fn owner_group_and_mode_stay() {
    let shared = match Shared::new("kept") {
        None => return not_possible("owner_group_and_mode_stay", NO_USER),
        Some(shared) => shared,
    };
    shared.open_to_all();
    for (owner, group, mode) in [
        (NOBODY, NOBODY, 0o640),
        (NOBODY, 0, 0o4755),
        (0, NOBODY, 0o2770),
        (1_234, 5_678, 0o606),
    ] {
        shared.put("in", &start(), owner, group, mode);
        shared.as_root("\"$TOOL\" run in 30 in --replace").done();
        assert_eq!(shared.get("in"), worked_after());
        assert_eq!(shared.belongs("in"), (owner, group, mode));
    }
    shared.put("in", &start(), NOBODY, NOBODY, 0o640);
    shared.as_nobody("\"$TOOL\" run in 30 in --replace").done();
    assert_eq!(shared.get("in"), worked_after());
    assert_eq!(shared.belongs("in"), (NOBODY, NOBODY, 0o640));
}

/// The steps of a run that ended belong to the one whose save it is.
#[test]
fn what_ended_belongs_to_the_owner_too() {
    let shared = match Shared::new("ended") {
        None => return not_possible("what_ended_belongs_to_the_owner_too", NO_USER),
        Some(shared) => shared,
    };
    let stop = image(&WORKED_HEAD, &memory(&[(0x0150, &[0x10, 0x00])]));
    shared.put("in", &stop, NOBODY, NOBODY, 0o640);
    symlink("in", shared.0.join("files").join("link")).unwrap();
    let ran = shared.as_root("\"$TOOL\" run in 30 link --replace");
    assert_eq!(ran.exit, Some(1));
    assert_eq!(shared.belongs("in.ended"), (NOBODY, NOBODY, 0o640));
    assert_eq!(shared.get("in"), stop);
}
