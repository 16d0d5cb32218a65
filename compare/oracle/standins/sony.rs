//! Stands in for the module that writes files: what would be written is kept, in
//! order, by name and bytes.

use std::cell::RefCell;
use std::io;
use std::path::Path;

thread_local! {
    static WRITTEN: RefCell<Vec<(String, Vec<u8>)>> = const { RefCell::new(Vec::new()) };
}

pub fn atomic_write_bytes(path: &Path, bytes: &[u8]) -> io::Result<()> {
    let name = path.file_name().unwrap_or_default().to_string_lossy().into_owned();
    WRITTEN.with(|w| w.borrow_mut().push((name, bytes.to_vec())));
    Ok(())
}

pub fn ensure_private_dir(_: &Path) -> io::Result<()> {
    Ok(())
}

/// What was written on this thread since the last call.
pub fn take_written() -> Vec<(String, Vec<u8>)> {
    WRITTEN.with(|w| w.take())
}

pub mod command {
    pub const MDR_VOLUME_MAX: i32 = 30;
}
