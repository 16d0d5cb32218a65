//! What the standard library does not have: signals, and one sync for a whole file system. The only unsafe code of the program.

use std::fs::File;
use std::io;
use std::os::fd::AsRawFd;
use std::sync::atomic::{AtomicI32, Ordering};

extern "C" {
    fn signal(number: i32, action: usize) -> usize;
    fn raise(number: i32) -> i32;
    fn syncfs(descriptor: i32) -> i32;
}

const HANGUP: i32 = 1;
const INTERRUPT: i32 = 2;
const TERMINATE: i32 = 15;
const FILE_SIZE: i32 = 25;

const DEFAULT: usize = 0;
const IGNORE: usize = 1;

/// The signal that asked the program to end, or 0.
static ASKED: AtomicI32 = AtomicI32::new(0);

extern "C" fn note(number: i32) {
    ASKED.store(number, Ordering::Relaxed);
}

/// From now on the signals that end a program are only noted, and a file that grows too long is an error.
pub fn watch() {
    // Safety: the handler stores to an atomic and does nothing else, and the other actions are the system's own.
    unsafe {
        for number in [HANGUP, INTERRUPT, TERMINATE] {
            if signal(number, note as extern "C" fn(i32) as usize) == IGNORE {
                signal(number, IGNORE);
            }
        }
        signal(FILE_SIZE, IGNORE);
    }
}

/// Whether a signal asked the program to end.
pub fn asked_to_end() -> bool {
    ASKED.load(Ordering::Relaxed) != 0
}

/// Ends by the signal that was noted, so that the caller sees which.
pub fn end() {
    let number = ASKED.load(Ordering::Relaxed);
    // Safety: the system's own action, and a signal to this program alone.
    unsafe {
        signal(number, DEFAULT);
        raise(number);
    }
}

/// Waits until all that was written to the file system of an open file is on the disk.
pub fn sync(file: &File) -> io::Result<()> {
    // Safety: the descriptor is open while the file is borrowed.
    match unsafe { syncfs(file.as_raw_fd()) } {
        0 => Ok(()),
        _ => Err(io::Error::last_os_error()),
    }
}
