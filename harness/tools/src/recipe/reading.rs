//! Bytes from a file or from standard input, no more than are needed, and whether they are text.

use model::text::Position;
use std::fs::File;
use std::io::{Error, ErrorKind, Read};

/// Opens the file that is named.
pub fn open(name: &str) -> Result<File, String> {
    let file = File::open(name).map_err(|fault| cannot_read(name, &fault))?;
    match file.metadata() {
        Ok(there) if there.is_dir() => Err(format!("cannot read {name}: it is a directory")),
        _ => Ok(file),
    }
}

/// Reads on until there are so many bytes, or no more to come.
pub fn fill(from: &mut dyn Read, name: &str, bytes: &mut Vec<u8>, most: usize) -> Result<(), String> {
    let missing = most.saturating_sub(bytes.len()) as u64;
    from.take(missing).read_to_end(bytes).map(drop).map_err(|fault| cannot_read(name, &fault))
}

/// Why a file cannot be read.
fn cannot_read(name: &str, fault: &Error) -> String {
    match fault.kind() {
        ErrorKind::NotFound => format!("cannot read {name}: there is no such file"),
        ErrorKind::PermissionDenied => format!("cannot read {name}: its permissions do not allow it"),
        _ => format!("cannot read {name}: {fault}"),
    }
}

/// The bytes as text; or the first byte that is none, and where it stands. Of a text that is cut the last letter may be missing.
pub fn utf8(bytes: &[u8], cut: bool) -> Result<&str, (Position, u8)> {
    let fault = match std::str::from_utf8(bytes) {
        Ok(text) => return Ok(text),
        Err(fault) => fault,
    };
    let (before, behind) = bytes.split_at(fault.valid_up_to());
    let text = std::str::from_utf8(before).unwrap_or_default();
    match (cut && fault.error_len().is_none(), behind.first()) {
        (false, Some(byte)) => Err((end_of(text), *byte)),
        _ => Ok(text),
    }
}

/// The position behind the last letter of a text.
fn end_of(text: &str) -> Position {
    let last = text.rsplit('\n').next().unwrap_or("");
    Position { line: text.matches('\n').count() + 1, column: last.chars().count() + 1 }
}
