//! The reader of recipes as text, held against itself: it answers every text, points into it, finds no early fault in what an
//! accepted one begins with, and reads what is printed of it as the same words.

use crate::engine::{Engine, Read};
use model::check::{read_words, Recipe};
use model::node::Node;
use model::text::{early_fault, flat, pretty, Fault, Parsed, Style};

/// Reads an input's text. What is wrong with the answer comes back shown.
pub fn text(engine: &Engine, bytes: &[u8]) -> Result<(), String> {
    let text = String::from_utf8_lossy(bytes);
    let wrong = match (engine.read)(&text) {
        Err(fault) => fault_wrong(&text, &fault),
        Ok(parsed) => parsed_wrong(engine.read, &text, &parsed),
    };
    wrong.map_err(|wrong| format!("text:\n{text}\n{wrong}\n"))
}

/// What is wrong with a fault: it says something, and points into the text.
fn fault_wrong(text: &str, fault: &Fault) -> Result<(), String> {
    match !fault.message.is_empty() && is_within(text, fault.line, fault.column) {
        true => Ok(()),
        false => Err(format!("the fault does not point into the text: {fault}")),
    }
}

/// Whether a line and a column, both counted from 1, are of a letter of the text or of the place right behind a line.
fn is_within(text: &str, line: usize, column: usize) -> bool {
    let columns = text.split('\n').nth(line.wrapping_sub(1)).map(|line| line.chars().count() + 1);
    columns.is_some_and(|columns| (1..=columns).contains(&column))
}

/// What is wrong with an accepted text: its words are in order, each has its position and its name, and they come back from what
/// is printed of them.
fn parsed_wrong(read: Read, text: &str, parsed: &Parsed) -> Result<(), String> {
    let count = parsed.declared.len() + parsed.term.len();
    let counts = [parsed.positions.len(), parsed.names.len()];
    if counts != [count; 2] {
        return Err(format!("{count} words have {} positions and {} names", counts[0], counts[1]));
    }
    if let Some(outside) = parsed.positions.iter().find(|place| !is_within(text, place.line, place.column)) {
        return Err(format!("a word does not stand in the text: {outside:?}"));
    }
    let recipe = read_words(&parsed.declared, &parsed.term, usize::MAX).map_err(|refusal| {
        format!("the words are not in order: {refusal:?} {:?} {:?}", parsed.declared, parsed.term)
    })?;
    begun_wrong(text)?;
    let names = &parsed.names[parsed.declared.len()..];
    styles(names).iter().try_for_each(|style| printed_wrong(read, parsed, &recipe, style))
}

/// Places at which an accepted text is cut off.
const CUTS: usize = 8;

/// What is wrong with the beginnings of an accepted text: they have no early fault, wherever they are cut off.
fn begun_wrong(text: &str) -> Result<(), String> {
    let ends = (0..text.len()).rev().step_by(1 + text.len() / CUTS).filter(|end| text.is_char_boundary(*end));
    let fault = ends.filter_map(|end| early_fault(&text[..end]).map(|fault| (&text[..end], fault))).next();
    fault.map_or(Ok(()), |(begun, fault)| Err(format!("this begins an accepted text:\n{begun}\nbut: {fault}")))
}

/// The ways of writing that are tried: wide and narrow, with names and numbers, with and without `let`.
fn styles(names: &[Option<String>]) -> [Style<'_>; 6] {
    let plain = Style::PLAIN;
    [
        plain,
        Style { numbers: true, width: 1, ..plain },
        Style { lets: true, width: 20, ..plain },
        Style { names, ..plain },
        Style { names, lets: true, width: 40, ..plain },
        Style { names, numbers: true, lets: true, ..plain },
    ]
}

/// What is wrong with a recipe's text: it is read as the same words, and is the same when it is printed with the names that it has.
fn printed_wrong(read: Read, parsed: &Parsed, recipe: &Recipe, style: &Style<'_>) -> Result<(), String> {
    let printed = printed(recipe, style);
    let told = |what: String| format!("printed:\n{printed}words: {:?} {:?}\n{what}", parsed.declared, parsed.term);
    let again = read(&printed).map_err(|fault| told(format!("what is printed is not read: {fault}")))?;
    if again.declared != parsed.declared || again.term != parsed.term {
        return Err(told(format!("read again: {:?} {:?}", again.declared, again.term)));
    }
    let names = &again.names[again.declared.len().min(again.names.len())..];
    let twice = self::printed(recipe, &Style { names, ..*style });
    match twice == printed {
        true => Ok(()),
        false => Err(told(format!("printed with the names that it has:\n{twice}"))),
    }
}

/// A recipe as text: its type, and its term as the style has it.
fn printed(recipe: &Recipe, style: &Style<'_>) -> String {
    format!("{}\n{}\n", flat(Node::Type(&recipe.declared)), pretty(Node::Ml(&recipe.term), style))
}
