//! What the tests of the program `recipe` share: its parts called in this process, the model in the engine's place.
#![allow(dead_code)]

pub mod browser;
pub mod carding;
pub mod checking;
pub mod json;
pub mod paging;
pub mod pricing;
pub mod saving;

use std::io::{Error, ErrorKind, Write};
use tools::engine::{Card, Check, Node, Price, Run, Save};
use tools::recipe::{program, Desk, Engine, WIDTH};
use tools::stand_in;

/// The status, what is printed, and what is said on standard error.
pub fn typed(words: &[&str], input: &[u8]) -> (u8, Vec<u8>, String) {
    let (mut output, mut errors) = (Vec::new(), Vec::new());
    let status = typed_into(words, input, &mut output, &mut errors);
    (status, output, String::from_utf8(errors).expect("text"))
}

/// The same of a program that prints text.
pub fn printed(words: &[&str], input: &[u8]) -> (u8, String, String) {
    let (status, output, errors) = typed(words, input);
    (status, String::from_utf8(output).expect("text"), errors)
}

/// The status of a program that writes to these two.
pub fn typed_into(words: &[&str], input: &[u8], output: &mut (dyn Write + Send), errors: &mut dyn Write) -> u8 {
    typed_with(stand_in::save, words, input, output, errors)
}

/// The same with another save.
pub fn typed_with(
    save: Save,
    words: &[&str],
    input: &[u8],
    output: &mut (dyn Write + Send),
    errors: &mut dyn Write,
) -> u8 {
    typed_by(Engine { save: Some(save), ..model_as_engine() }, words, input, output, errors)
}

/// The model in the engine's place.
pub fn model_as_engine() -> Engine {
    let (check, run, price) =
        (Some(stand_in::check as Check), Some(stand_in::run as Run), Some(stand_in::price as Price));
    let (card, save, node) = (Some(stand_in::card as Card), Some(stand_in::save as Save), Some(stand_in::node as Node));
    Engine { check, run, price, card, save, node }
}

/// The same with any engine.
pub fn typed_by(
    engine: Engine,
    words: &[&str],
    mut input: &[u8],
    output: &mut (dyn Write + Send),
    errors: &mut dyn Write,
) -> u8 {
    let mut desk = Desk { engine, width: WIDTH, input: &mut input, output, note: String::new() };
    program(words.iter().map(|word| word.to_string()).collect(), &mut desk, errors)
}

/// A writer that nobody reads.
pub struct Unread;

impl Write for Unread {
    fn write(&mut self, _: &[u8]) -> std::io::Result<usize> {
        Err(Error::from(ErrorKind::BrokenPipe))
    }

    fn flush(&mut self) -> std::io::Result<()> {
        Ok(())
    }
}
