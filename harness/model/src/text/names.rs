//! The names of kinds in text.

use crate::kinds::{kind, ml, scheme, Kind, Sort, KINDS, LUMP, N};

const TESTS: [&str; 4] = ["fun?", "list?", "null?", "num?"];

/// Kinds that are written without parentheses.
pub enum Atom {
    Variable,
    Number,
    Lump,
    Name,
}

pub fn atom(row: &Kind) -> Option<Atom> {
    match row.number {
        ml::VARIABLE | scheme::VARIABLE => Some(Atom::Variable),
        ml::NUMBER | scheme::NUMBER => Some(Atom::Number),
        LUMP => Some(Atom::Lump),
        N | scheme::NIL => Some(Atom::Name),
        _ => None,
    }
}

/// A lump's type: `L` of owner 0, `L7` of owner 7.
pub fn lump_name(owner: u32) -> String {
    match owner {
        0 => "L".into(),
        _ => format!("L{owner}"),
    }
}

/// Whether the operand is written as a number behind the name.
pub fn shows_operand(row: &Kind) -> bool {
    matches!(row.number, ml::WRONG | scheme::WRONG)
}

/// The name of a node that is written in parentheses.
pub fn head(row: &Kind, operand: u32) -> &'static str {
    match row.number {
        ml::LAMBDA | scheme::LAMBDA => "fn",
        ml::APPLICATION | scheme::APPLICATION => "app",
        scheme::TEST => TESTS[(operand % 4) as usize],
        _ => row.name,
    }
}

/// The row of a name in parentheses, and the operand where the name tells it.
pub fn headed(sort: Sort, name: &str) -> Option<(&'static Kind, Option<u32>)> {
    let long = match name {
        "fn" => "lambda",
        "app" => "application",
        _ => name,
    };
    if let (Sort::Scheme, Some(operand)) = (sort, TESTS.iter().position(|test| *test == name)) {
        return kind(scheme::TEST).map(|row| (row, Some(operand as u32)));
    }
    let row = KINDS.iter().find(|row| row.sort == sort && row.name == long && atom(row).is_none())?;
    (sort != Sort::Type && row.number != scheme::TEST).then_some((row, None))
}

/// A kind with its language: "ML number".
pub fn kind_name(row: &Kind) -> String {
    format!("{} {}", language(row), row.name)
}

/// What a kind's name is written behind.
fn language(row: &Kind) -> &'static str {
    match row.sort {
        Sort::Type => "type",
        Sort::Ml => "ML",
        Sort::Scheme => "Scheme",
    }
}

/// What a word says, for a list of words: "ML number 7", or that it has no kind or operand.
pub fn describe(word: u32) -> String {
    let operand = word / 256;
    let Some(row) = kind(word % 256) else { return format!("no kind has the number {}", word % 256) };
    let language = language(row);
    if operand < row.least || operand > row.most {
        let what = if row.number == LUMP { "owner" } else { "operand" };
        return format!("{language} {} with {what} {operand}, outside {} to {}", row.name, row.least, row.most);
    }
    match (row.number, row.most) {
        (scheme::TEST, _) => format!("{language} {}", head(row, operand)),
        (LUMP, _) => format!("{language} {}", lump_name(operand)),
        (_, 0) => format!("{language} {}", row.name),
        _ => format!("{language} {} {operand}", row.name),
    }
}
