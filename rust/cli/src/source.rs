//! Reading a trace.

use std::fs::{File, OpenOptions};
use std::io::{self, Read};
use std::os::unix::fs::{FileTypeExt, OpenOptionsExt};
use std::path::Path;

use crate::words::shown;
use lumbryth::FILE_MAX;

/// Opening a pipe that nobody writes to does not wait.
const O_NONBLOCK: i32 = 0o4000;

/// The bytes of a file, or why there are none. Of a file that is too long, one more than can be
/// imported, so that it is refused for its length.
pub fn read(path: &Path) -> Result<Vec<u8>, String> {
    let failed = |error: io::Error| match error.kind() {
        io::ErrorKind::NotFound => format!("there is no such file: {}", shown(path)),
        io::ErrorKind::PermissionDenied => format!("the file may not be read: {}", shown(path)),
        _ => format!("the file cannot be read: {error}: {}", shown(path)),
    };
    let file = OpenOptions::new().read(true).custom_flags(O_NONBLOCK).open(path).map_err(failed)?;
    let kind = file.metadata().map_err(failed)?.file_type();
    let what = if kind.is_dir() {
        "a directory"
    } else if kind.is_fifo() {
        "a pipe"
    } else if !kind.is_file() {
        "a device"
    } else {
        return read_all(file).map_err(failed);
    };
    let hint = if kind.is_dir() { "" } else { "; save the trace to a file first" };
    Err(format!("this is {what}, not a file{hint}: {}", shown(path)))
}

fn read_all(file: File) -> io::Result<Vec<u8>> {
    let mut bytes = Vec::new();
    file.take(FILE_MAX as u64 + 1).read_to_end(&mut bytes)?;
    Ok(bytes)
}
