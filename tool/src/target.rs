//! Writing files so that none that was there before is lost.

use std::ffi::OsString;
use std::fs::{self, File, Metadata, OpenOptions};
use std::io::{self, ErrorKind, Seek, Write};
use std::os::unix::fs::MetadataExt;
use std::path::{Path, PathBuf};
use std::process;

use crate::input::{identity, Identity};
use crate::trouble::Trouble;
use crate::{unix, words};

/// Writes a file whose bytes are known: they take their room at once, so none is taken before.
pub fn write(path: &Path, replace: bool, bytes: &[u8]) -> Result<(), Trouble> {
    Target::new(path, replace, 0)?.write(bytes)
}

/// Where a file is to be written. The draft is there from the start, with all its room, its owner,
/// group and mode, so that no long run is in vain.
#[derive(Debug)]
pub struct Target {
    path: PathBuf,
    /// The file that is to be replaced.
    old: Option<Identity>,
    draft: Draft,
}

impl Target {
    /// Room for a file of that many bytes, unless one is there that must not be replaced.
    pub fn new(path: &Path, replace: bool, length: usize) -> Result<Self, Trouble> {
        unix::note_requests_to_end();
        if path == Path::new("-") {
            return Err(Trouble::usage(
                "OUT must be a file's name, and ./- is one; - is standard input",
            ));
        }
        let target = match fs::symlink_metadata(path) {
            Ok(found) if found.is_symlink() => Self::behind_link(path, replace),
            Ok(_) => Self::existing(path, path, replace),
            Err(error) if error.kind() == ErrorKind::NotFound => Self::fresh(path),
            Err(error) => Err(Trouble::file(path, &error)),
        };
        let mut target = target?;
        target
            .draft
            .fill(&vec![0; length])
            .map_err(|error| Trouble::file(path, &error))?;
        Ok(target)
    }

    /// A link is followed: what it names is replaced, and the link stays.
    fn behind_link(path: &Path, replace: bool) -> Result<Self, Trouble> {
        let real = fs::canonicalize(path).map_err(|error| match error.kind() {
            ErrorKind::NotFound => Trouble::said(path, "a link to nothing, so not replaced"),
            _ => Trouble::file(path, &error),
        })?;
        Self::existing(path, &real, replace)
    }

    fn existing(path: &Path, real: &Path, replace: bool) -> Result<Self, Trouble> {
        let trouble = |error| Trouble::file(path, &error);
        let found = fs::metadata(real).map_err(trouble)?;
        if !found.is_file() {
            let kind = words::kind(found.file_type());
            return Err(Trouble::said(path, &format!("{kind}, so not replaced")));
        }
        if !replace {
            return Err(Trouble::said(
                path,
                "there is such a file already; --replace would replace it",
            ));
        }
        if found.permissions().readonly() {
            return Err(Trouble::said(path, "write-protected, so not replaced"));
        }
        // What may not be written may not be replaced either, also where the folder would allow it.
        OpenOptions::new().write(true).open(real).map_err(trouble)?;
        let draft = Draft::new(folder_of(real)).map_err(|error| no_draft(path, &error))?;
        draft
            .belong_as(&found)
            .map_err(|what| Trouble::said(path, &what))?;
        Ok(Target {
            path: real.to_path_buf(),
            old: Some(identity(&found)),
            draft,
        })
    }

    fn fresh(path: &Path) -> Result<Self, Trouble> {
        let folder = folder_of(path);
        if path.file_name().is_none() {
            return Err(Trouble::said(path, "that names no file"));
        }
        if !folder.is_dir() {
            return Err(Trouble::said(path, "there is no such folder"));
        }
        let draft = Draft::new(folder).map_err(|error| no_draft(path, &error))?;
        Ok(Target {
            path: path.to_path_buf(),
            old: None,
            draft,
        })
    }

    /// Whether it is this file that would be replaced.
    pub fn replaces(&self, file: Identity) -> bool {
        self.old == Some(file)
    }

    /// Writes the whole file or nothing. Under its name there is at any time what was there before
    /// or all of the new bytes.
    pub fn write(mut self, bytes: &[u8]) -> Result<(), Trouble> {
        let written = self.draft.fill(bytes).and_then(|()| match self.old {
            Some(_) => fs::rename(&self.draft.path, &self.path),
            None => place(&self.draft.path, &self.path),
        });
        written.map_err(|error| match error.kind() {
            ErrorKind::AlreadyExists => Trouble::said(
                &self.path,
                "such a file appeared meanwhile; it is left as it is",
            ),
            _ => Trouble::file(&self.path, &error),
        })?;
        self.keep_name();
        Ok(())
    }

    /// Writes a new file beside the one that was to be replaced, and answers its name.
    pub fn write_beside(mut self, bytes: &[u8], ending: &str) -> Result<PathBuf, Trouble> {
        let written = self.draft.fill(bytes);
        let path = written
            .and_then(|()| place_beside(&self.draft.path, &self.path, ending))
            .map_err(|error| Trouble::file(&self.path, &error))?;
        self.keep_name();
        Ok(path)
    }

    /// The new bytes are on the disk; without this the name could, after a loss of power, still be
    /// the old file's. Some file systems cannot do it.
    fn keep_name(&self) {
        let _ = File::open(folder_of(&self.path)).and_then(|folder| folder.sync_all());
    }
}

fn folder_of(path: &Path) -> &Path {
    match path.parent() {
        Some(folder) if !folder.as_os_str().is_empty() => folder,
        _ => Path::new("."),
    }
}

fn no_draft(path: &Path, error: &io::Error) -> Trouble {
    let why = words::file_error(error);
    Trouble::said(path, &format!("its folder takes no new file: {why}"))
}

/// Gives a draft the first name beside a file that nothing has.
fn place_beside(draft: &Path, path: &Path, ending: &str) -> io::Result<PathBuf> {
    let mut number = 1u32;
    loop {
        let path = beside(path, ending, number);
        match place(draft, &path) {
            Err(error) if error.kind() == ErrorKind::AlreadyExists => number += 1,
            placed => return placed.map(|()| path),
        }
    }
}

/// `NAME.ending`, and then `NAME.ending-2` and so on.
fn beside(path: &Path, ending: &str, number: u32) -> PathBuf {
    let mut name = OsString::from(path);
    name.push(format!(".{ending}"));
    if number > 1 {
        name.push(format!("-{number}"));
    }
    PathBuf::from(name)
}

/// Gives a draft its name, unless something has that name.
fn place(draft: &Path, path: &Path) -> io::Result<()> {
    match fs::hard_link(draft, path) {
        Err(error) if error.kind() != ErrorKind::AlreadyExists => claim(draft, path),
        linked => linked,
    }
}

/// The same where a file cannot have two names, as on memory cards: an empty file takes the name,
/// and only that one is renamed over.
fn claim(draft: &Path, path: &Path) -> io::Result<()> {
    OpenOptions::new().write(true).create_new(true).open(path)?;
    fs::rename(draft, path).map_err(|error| {
        let _ = fs::remove_file(path);
        error
    })
}

/// A file that is being written, beside the one that it is to become. It goes when this does, unless
/// it was renamed.
#[derive(Debug)]
struct Draft {
    path: PathBuf,
    file: File,
}

impl Draft {
    fn new(folder: &Path) -> io::Result<Self> {
        let mut number = 0u32;
        loop {
            let path = folder.join(format!(".trnadulek-{}-{number}.part", process::id()));
            match OpenOptions::new().write(true).create_new(true).open(&path) {
                Ok(file) => return Ok(Draft { path, file }),
                Err(error) if error.kind() == ErrorKind::AlreadyExists => number += 1,
                Err(error) => return Err(error),
            }
        }
    }

    /// Takes over owner, group and mode, or says which cannot be kept.
    fn belong_as(&self, old: &Metadata) -> Result<(), String> {
        let belongs = |found: &Metadata| (found.uid(), found.gid(), found.mode());
        let taken_over = || -> io::Result<bool> {
            let own = self.file.metadata()?;
            if (own.uid(), own.gid()) != (old.uid(), old.gid()) {
                unix::give(&self.file, old.uid(), old.gid())?;
            }
            self.file.set_permissions(old.permissions())?;
            Ok(belongs(&self.file.metadata()?) == belongs(old))
        };
        match taken_over() {
            Ok(true) => Ok(()),
            _ => Err(format!(
                "user {}, group {} and mode {:o} cannot be kept by this user, so not replaced",
                old.uid(),
                old.gid(),
                old.mode() & 0o7777
            )),
        }
    }

    /// The draft's bytes from its start on, and on the disk.
    fn fill(&mut self, bytes: &[u8]) -> io::Result<()> {
        self.file.rewind()?;
        self.file.write_all(bytes)?;
        self.file.sync_all()
    }
}

impl Drop for Draft {
    fn drop(&mut self) {
        let _ = fs::remove_file(&self.path);
    }
}

#[cfg(test)]
mod tests {
    use super::*;

    /// A folder of this test alone, with nothing in it.
    fn folder(name: &str) -> PathBuf {
        let folder = std::env::temp_dir().join(format!("trnadulek-{name}-{}", process::id()));
        let _ = fs::remove_dir_all(&folder);
        fs::create_dir(&folder).unwrap();
        folder
    }

    fn names(folder: &Path) -> Vec<String> {
        let entries = fs::read_dir(folder).unwrap();
        entries
            .map(|entry| entry.unwrap().file_name().into_string().unwrap())
            .collect()
    }

    #[test]
    fn a_file_that_appeared_meanwhile_stays() {
        let folder = folder("meanwhile");
        let path = folder.join("out");
        let target = Target::new(&path, false, 4).unwrap();
        fs::write(&path, "other").unwrap();
        let line = target.write(b"mine").unwrap_err().line();
        assert!(line.contains("appeared meanwhile"), "{line}");
        assert_eq!(fs::read(&path).unwrap(), b"other");
        assert_eq!(names(&folder), ["out"]);
        fs::remove_dir_all(folder).unwrap();
    }

    #[test]
    fn without_second_names_a_file_is_claimed_first() {
        let folder = folder("claim");
        let (draft, path) = (folder.join("draft"), folder.join("out"));
        fs::write(&draft, "mine").unwrap();
        claim(&draft, &path).unwrap();
        assert_eq!(fs::read(&path).unwrap(), b"mine");
        fs::write(&draft, "again").unwrap();
        let error = claim(&draft, &path).unwrap_err();
        assert_eq!(error.kind(), ErrorKind::AlreadyExists);
        assert_eq!(fs::read(&path).unwrap(), b"mine");
        fs::remove_file(&draft).unwrap();
        fs::remove_file(&path).unwrap();
        assert!(claim(&draft, &path).is_err());
        assert!(names(&folder).is_empty());
        fs::remove_dir_all(folder).unwrap();
    }

    #[test]
    fn the_room_is_taken_before_the_bytes_are_known() {
        let folder = folder("room");
        let path = folder.join("out");
        let target = Target::new(&path, false, 1_000).unwrap();
        assert_eq!(fs::metadata(&target.draft.path).unwrap().len(), 1_000);
        drop(target);
        assert!(names(&folder).is_empty());
        fs::remove_dir_all(folder).unwrap();
    }
}
