//! What the standard library of Rust 1.63 has no call for. This is the only module with unsafe code.
#![allow(unsafe_code)]

use std::fs::File;
use std::io;
use std::os::raw::{c_int, c_uint};
use std::os::unix::io::AsRawFd;
use std::sync::atomic::{AtomicBool, Ordering};

mod extern_c {
    use super::{c_int, c_uint};

    extern "C" {
        pub fn fchown(file: c_int, owner: c_uint, group: c_uint) -> c_int;
        pub fn isatty(file: c_int) -> c_int;
        pub fn signal(number: c_int, handler: usize) -> usize;
    }
}

/// Gives a file to a user and a group.
pub fn give(file: &File, owner: u32, group: u32) -> io::Result<()> {
    // SAFETY: it takes numbers alone, and the file is open for as long as it is borrowed.
    match unsafe { extern_c::fchown(file.as_raw_fd(), owner, group) } {
        0 => Ok(()),
        _ => Err(io::Error::last_os_error()),
    }
}

pub fn is_terminal(stream: &impl AsRawFd) -> bool {
    // SAFETY: it takes a number alone.
    unsafe { extern_c::isatty(stream.as_raw_fd()) == 1 }
}

static ASKED_TO_END: AtomicBool = AtomicBool::new(false);

extern "C" fn note(_signal: c_int) {
    ASKED_TO_END.store(true, Ordering::Relaxed);
}

/// From here on a hang-up, Ctrl-C or `kill` is noted and does not end the tool at once, so that no
/// draft is left. One that is ignored, as under `nohup`, stays so.
pub fn note_requests_to_end() {
    const HANGUP: c_int = 1;
    const INTERRUPT: c_int = 2;
    const TERMINATE: c_int = 15;
    const IGNORED: usize = 1;
    let handler = note as extern "C" fn(c_int) as usize;
    for number in [HANGUP, INTERRUPT, TERMINATE] {
        // SAFETY: the handler does nothing but to set a flag that is there for ever.
        unsafe {
            if extern_c::signal(number, handler) == IGNORED {
                extern_c::signal(number, IGNORED);
            }
        }
    }
}

pub fn asked_to_end() -> bool {
    ASKED_TO_END.load(Ordering::Relaxed)
}
