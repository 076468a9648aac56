//! The standard files. Rust's start-up puts the null device in the place of a closed one, and its
//! `stdout` takes a write to a file that is not open for writing as done: data would be lost without
//! a word. So it is looked before the start-up which of them are closed, and they are used as plain
//! files.

use std::fs::File;
use std::io;
use std::os::fd::FromRawFd;
use std::sync::atomic::{AtomicBool, Ordering};

const INPUT: i32 = 0;
const OUTPUT: i32 = 1;
/// `fcntl`'s request that does nothing but fail where the file is not open, and the error it gives.
const F_GETFD: i32 = 1;
const EBADF: i32 = 9;

/// Whether the file was closed from the start, or has been taken.
static INPUT_GONE: AtomicBool = AtomicBool::new(false);
static OUTPUT_GONE: AtomicBool = AtomicBool::new(false);

extern "C" {
    fn fcntl(file: i32, request: i32, ...) -> i32;
}

extern "C" fn look() {
    // SAFETY: F_GETFD takes no argument and changes nothing
    let is_closed = |file| unsafe { fcntl(file, F_GETFD) } == -1;
    INPUT_GONE.store(is_closed(INPUT), Ordering::Relaxed);
    OUTPUT_GONE.store(is_closed(OUTPUT), Ordering::Relaxed);
}

/// The loader calls what stands in this section before `main`.
#[used]
#[link_section = ".init_array"]
static LOOK: extern "C" fn() = look;

/// Standard input, once: it is closed with the file.
pub fn input() -> io::Result<File> {
    take(INPUT, &INPUT_GONE)
}

/// Standard output, once.
pub fn output() -> io::Result<File> {
    take(OUTPUT, &OUTPUT_GONE)
}

fn take(file: i32, is_gone: &AtomicBool) -> io::Result<File> {
    if is_gone.swap(true, Ordering::Relaxed) {
        return Err(io::Error::from_raw_os_error(EBADF));
    }
    // SAFETY: the file is open, is handed out here alone and only once, and nothing else uses it
    Ok(unsafe { File::from_raw_fd(file) })
}
