//! What a command is given: a recipe file or a recipe's text, from a file or from standard input. No more is read than is needed, so
//! that an endless input comes back.

use super::reading::{fill, open, utf8};
use super::Desk;
use crate::args::Args;
use model::file::{file, MOST_BYTES};
use model::text::{early_fault, parse_recipe, Parsed, Position};
use std::io::Read;

/// The bytes of a recipe file, and where they come from a text, where each word stands in it and which names it has.
pub struct Input {
    pub bytes: Vec<u8>,
    pub text: Option<Parsed>,
    /// Why the bytes are no text, where they might have been meant as one.
    pub no_text: Option<String>,
    /// The columns of the lines on which something is said of it.
    pub width: usize,
}

/// The bytes that were read: of a recipe file at most one more than a file may have, of a text at most one more than a text may have.
enum Given {
    File(Vec<u8>),
    Text(Vec<u8>),
}

/// The bytes of a text at most.
const MOST_TEXT: usize = 16 << 20;

impl Input {
    /// Where a word of the file stands in the text, if there is one.
    pub fn position(&self, place: usize) -> Option<Position> {
        self.text.as_ref()?.positions.get(place.checked_sub(4)?).copied()
    }

    /// The names that the text has for the functions of the term, by their words.
    pub fn names(&self) -> &[Option<String>] {
        self.text.as_ref().and_then(|parsed| parsed.names.get(parsed.declared.len()..)).unwrap_or(&[])
    }
}

/// Reads the file that is named, or standard input where none or `-` is. Nothing else may be left of the command.
fn given(mut args: Args, desk: &mut Desk<'_>) -> Result<Given, String> {
    let name = args.word();
    args.finish()?;
    match name {
        Some(name) if name != "-" => told_apart(&mut open(&name)?, &name),
        _ => told_apart(desk.input, "standard input"),
    }
}

/// Reads a recipe file or a text. A text holds no zero byte; a file's first count always does.
fn told_apart(from: &mut dyn Read, name: &str) -> Result<Given, String> {
    let mut bytes = Vec::new();
    fill(from, name, &mut bytes, MOST_BYTES + 1)?;
    if bytes.starts_with(&[0xff, 0xfe]) || bytes.starts_with(&[0xfe, 0xff]) {
        return Err("the text is UTF-16; save it as UTF-8".into());
    }
    if bytes.contains(&0) {
        return Ok(Given::File(bytes));
    }
    fill(from, name, &mut bytes, MOST_TEXT + 1)?;
    match bytes.starts_with(&[0xef, 0xbb, 0xbf]) {
        true => Err("line 1, column 1: the text starts with a byte order mark; save it as UTF-8 without one".into()),
        false => Ok(Given::Text(bytes)),
    }
}

/// Reads a recipe file, or a text that is made into one. Nothing at all and what is no text are files, for the engine to refuse.
pub fn read_input(args: Args, desk: &mut Desk<'_>) -> Result<Input, String> {
    read_with_text(args, desk).map(|(input, _)| input)
}

/// The same, with the text as it was written; a file has none.
pub fn read_with_text(args: Args, desk: &mut Desk<'_>) -> Result<(Input, String), String> {
    let width = desk.width;
    let of_file = |bytes, no_text| (Input { bytes, text: None, no_text, width }, String::new());
    let mut bytes = match given(args, desk)? {
        Given::Text(bytes) if !bytes.is_empty() => bytes,
        Given::File(bytes) | Given::Text(bytes) => return Ok(of_file(bytes, None)),
    };
    match text_of(&bytes) {
        Ok(text) => {
            let parsed = parsed(text, &bytes)?;
            let bytes = file(&parsed.declared, &parsed.term);
            Ok((Input { bytes, text: Some(parsed), no_text: None, width }, text.to_string()))
        }
        Err(why) => {
            bytes.truncate(MOST_BYTES + 1);
            Ok(of_file(bytes, Some(why)))
        }
    }
}

/// The recipe file of a text. Of one that has a variable by its number, a note is made.
pub fn read_made(args: Args, desk: &mut Desk<'_>) -> Result<Vec<u8>, String> {
    const NUMBERED: &str =
        "a variable by its number means another function as soon as one without a name is put around it";
    match given(args, desk)? {
        Given::File(_) => Err("this is a recipe file, not a text; recipe show writes it as text".into()),
        Given::Text(bytes) => {
            let parsed = parsed(text_of(&bytes)?, &bytes)?;
            if let Some(at) = parsed.numbered {
                desk.note = format!("recipe: note: {at}: {NUMBERED}; recipe show writes the text with names\n");
            }
            Ok(file(&parsed.declared, &parsed.term))
        }
    }
}

/// The bytes as text, or where they are none.
fn text_of(bytes: &[u8]) -> Result<&str, String> {
    let cut = bytes.len() > MOST_TEXT;
    utf8(bytes, cut).map_err(|(at, byte)| format!("{at}: the byte {byte:02X} is not UTF-8; save the text as UTF-8"))
}

/// The words of a text, of which not more was read than a text may have.
fn parsed(text: &str, bytes: &[u8]) -> Result<Parsed, String> {
    const LONG: &str = "the text has more than 16,777,216 bytes; a recipe file has at most 16,384";
    match bytes.len() > MOST_TEXT {
        true => Err(early_fault(text).map_or(LONG.into(), |fault| fault.to_string())),
        false => parse_recipe(text).map_err(|fault| fault.to_string()),
    }
}
