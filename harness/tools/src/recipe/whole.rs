//! A file written whole or not at all.

use std::fs;
use std::io::{Result as Written, Write};
use std::path::PathBuf;

/// Writes a file whole or not at all: another beside it, which then takes its place, so that what was saved before is there
/// until then. A device or a pipe is written as it stands.
pub fn write_whole(name: &str, bytes: &[u8]) -> Written<()> {
    let place = fs::canonicalize(name).unwrap_or_else(|_| PathBuf::from(name));
    if fs::metadata(&place).is_ok_and(|there| !there.is_file()) {
        return fs::write(&place, bytes);
    }
    let mut beside = place.clone().into_os_string();
    beside.push(".part");
    let written = write_and_keep(&beside, bytes).and_then(|()| fs::rename(&beside, &place));
    if written.is_err() {
        // It may not even have been made.
        let _ = fs::remove_file(&beside);
    }
    written
}

/// Writes a file and waits until it is kept.
fn write_and_keep(name: &std::ffi::OsStr, bytes: &[u8]) -> Written<()> {
    let mut file = fs::File::create(name)?;
    file.write_all(bytes)?;
    file.sync_all()
}
