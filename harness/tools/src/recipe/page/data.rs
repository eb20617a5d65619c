//! The data in the page, which its script reads: tables, the first term and the steps, and where the recipe's text has each word.

use super::super::input::Input;
use super::super::walk::{Due, Next};
use super::fill::quoted;
use super::record::{Change, Piece, Record};
use model::kinds::{Kind, Sort, KINDS};
use model::rules::Rule;
use model::text::{head, Parsed};
use model::Class;

/// All of it, as one object.
pub fn data(record: &Record, input: &Input, text: &str) -> String {
    let first: Vec<String> = record.first.iter().map(|(word, from)| format!("{word},{from}")).collect();
    let parts = [
        ("kinds", list(KINDS.iter().map(kind))),
        ("rules", list(Rule::ALL.iter().map(|rule| quoted(rule.name())))),
        ("classes", list(Class::ALL.iter().map(|class| quoted(class.name())))),
        ("first", list(first.into_iter())),
        ("steps", list(record.steps.iter().map(step))),
        ("next", record.next.as_ref().map_or("null".into(), next)),
        ("text", input.text.as_ref().map_or("null".into(), |_| quoted(text))),
        ("positions", input.text.as_ref().map_or("[]".into(), positions)),
        ("names", input.text.as_ref().map_or("{}".into(), names)),
    ];
    let fields: Vec<String> = parts.iter().map(|(name, part)| format!("{}:{part}", quoted(name))).collect();
    format!("{{{}}}", fields.join(",\n"))
}

/// Items between square brackets.
fn list(items: impl Iterator<Item = String>) -> String {
    format!("[{}]", items.collect::<Vec<_>>().join(","))
}

/// A kind: its number, its sort, its name in the table, what it is called in the text by its operand, and its parts' sorts.
fn kind(row: &Kind) -> String {
    let heads = if row.most < 16 { row.least..=row.most } else { row.least..=row.least };
    let heads = list(heads.map(|operand| quoted(head(row, operand))));
    let parts: String = row.parts.iter().map(|part| letter(*part)).collect();
    format!("[{},\"{}\",{},{heads},\"{parts}\"]", row.number, letter(row.sort), quoted(row.name))
}

/// A sort by a letter.
fn letter(sort: Sort) -> char {
    match sort {
        Sort::Type => 'T',
        Sort::Ml => 'M',
        Sort::Scheme => 'S',
    }
}

/// A step: the node in turn, its words, its rule and class, and the words that come in its place. Two numbers are a piece of
/// these: a word and where it comes from, or, the first being under 0, words of the node, from -1 the first, and how many.
fn step(change: &Change) -> String {
    let Due { place, size, .. } = change.due;
    let put = list(change.put.iter().map(|piece| match piece {
        Piece::Copied { from, count } => format!("-{},{count}", from + 1),
        Piece::New((word, from)) => format!("{word},{from}"),
    }));
    format!("[{place},{size},{},{},{put}]", rule(&change.due), change.due.class as usize)
}

/// The node in turn behind the last step, as a step that is not made.
fn next(due: &Due) -> String {
    format!("[{},{},{},{},[]]", due.place, due.size, rule(due), due.class as usize)
}

/// The rule by its place in the list of rules, or the code that ends the run, under 0.
fn rule(due: &Due) -> String {
    match due.next {
        Next::Rule(rule) => (rule as usize).to_string(),
        Next::Raised(code) => format!("-{code}"),
    }
}

/// The line and the column of each word behind the file's header.
fn positions(parsed: &Parsed) -> String {
    list(parsed.positions.iter().map(|at| format!("{},{}", at.line, at.column)))
}

/// The names that the text gives, by the place in the file of the word that it gives one to.
fn names(parsed: &Parsed) -> String {
    let named = parsed.names.iter().enumerate();
    let named = named.filter_map(|(at, name)| Some(format!("\"{}\":{}", at + 4, quoted(name.as_ref()?))));
    format!("{{{}}}", named.collect::<Vec<_>>().join(","))
}
