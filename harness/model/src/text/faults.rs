//! What is said of a text that is not in order: what a word takes, and what stands in the wrong place.

use super::names::{head, shows_operand};
use super::parse::{fault, Fault};
use super::print::flat;
use super::scope::Function;
use super::spelling::{has_word, is_name, is_reserved, is_type, meant, nearest, shown, words_of};
use super::tokens::Token;
use crate::kinds::{Kind, Sort};
use crate::node::Node;
use crate::tree::MOST_OWNER;

const COUNTS: [&str; 4] = ["no", "one", "two", "three"];
const PLACES: [&str; 4] = ["first", "second", "third", "fourth"];

/// A term of a language in a sentence.
pub fn a_term(sort: Sort) -> &'static str {
    match sort {
        Sort::Type => "a type",
        Sort::Ml => "an ML term",
        Sort::Scheme => "a Scheme term",
    }
}

/// A language in a sentence.
pub fn language(sort: Sort) -> &'static str {
    if sort == Sort::Scheme {
        "Scheme"
    } else {
        "ML"
    }
}

/// The other language.
pub fn other(sort: Sort) -> Sort {
    if sort == Sort::Scheme {
        Sort::Ml
    } else {
        Sort::Scheme
    }
}

/// What stands behind a word in brackets, in order.
fn parts(row: &Kind) -> Vec<&'static str> {
    let code = shows_operand(row).then_some("code");
    let part = |sort: &Sort| match sort {
        Sort::Type => "type",
        sort if *sort == row.sort => "term",
        Sort::Ml => "ML term",
        Sort::Scheme => "Scheme term",
    };
    code.into_iter().chain(row.parts.iter().map(part)).collect()
}

/// What a word takes, in a sentence: "add takes two terms".
fn takes(row: &Kind) -> String {
    let (name, parts) = (head(row, 0), parts(row));
    let article = |part: &&str| if part.starts_with("ML") { format!("an {part}") } else { format!("a {part}") };
    match parts[..] {
        ["term"] => format!("{name} takes one term"),
        ["term", ..] => format!("{name} takes {} terms", COUNTS[parts.len() % 4]),
        _ => format!("{name} takes {}", parts.iter().map(article).collect::<Vec<_>>().join(" and ")),
    }
}

/// The fault of a part that is missing, by what stands in its place.
pub fn missing(row: &Kind, head: &str, part: usize, here: Token<'_>) -> Fault {
    let parts = parts(row);
    let which = match parts[..] {
        [_] => "and it is missing".to_string(),
        ["term", ..] => format!("the {} is missing", PLACES[part % 4]),
        _ => format!("the {} is missing", parts[part % parts.len()]),
    };
    fault(here.position, format!("{}, {which}", renamed(takes(row), row, head)))
}

/// The fault of a token behind all parts.
pub fn too_many(row: &Kind, head: &str, here: Token<'_>) -> Fault {
    let parts = parts(row);
    let this = match parts[..] {
        ["term", ..] => format!("this is a {}", PLACES[parts.len() % 4]),
        _ => "this is too much".to_string(),
    };
    fault(here.position, format!("{}; {this}", renamed(takes(row), row, head)))
}

/// A sentence that starts with a kind's name, which starts with the word that was written.
fn renamed(sentence: String, row: &Kind, written: &str) -> String {
    format!("{written}{}", &sentence[head(row, 0).len()..])
}

/// How a word is written with what it takes: `(add a b)`.
pub fn form(sort: Sort, word: &str) -> String {
    let plain = match (word, sort) {
        ("fn" | "lambda", Sort::Scheme) => "(fn (x) e)",
        ("fn" | "lambda", _) => "(fn (x t) e)",
        ("let", Sort::Scheme) => "(let (x e) body)",
        ("let", _) => "(let (x t e) body)",
        ("app" | "application" | "add" | "subtract" | "cons", _) => return format!("({word} a b)"),
        ("if0", _) => "(if0 a b c)",
        ("nil", _) => "(nil t)",
        ("wrong", Sort::Scheme) => "(wrong 300)",
        ("wrong", _) => "(wrong 300 t)",
        ("ms" | "sm", _) => return format!("({word} t e)"),
        _ => return format!("({word} e)"),
    };
    plain.to_string()
}

/// The fault of a word that is no type.
pub fn no_type(token: Token<'_>) -> Fault {
    let word = shown(token.text);
    fault(token.position, format!("{word} is no type: N, L, L1 to L{MOST_OWNER}, {{t}} or (t to u)"))
}

/// The fault of a word behind an opening bracket where a term is due; the word may be the name of an argument.
pub fn no_head(sort: Sort, token: Token<'_>, bound: bool) -> Fault {
    let (word, due) = (token.text, a_term(sort));
    let message = match word {
        "(" | "{" | ")" | "}" => {
            "a word is due behind (, as in (add a b); a function is called by (app f a)".to_string()
        }
        "nil" => "nil is written alone in Scheme, without brackets and without a type".to_string(),
        _ if has_word(other(sort), word) => format!("{word} is {}'s; here {due} is due", language(other(sort))),
        _ if is_type(word) => format!("{word} is a type; here {due} is due"),
        _ if bound => format!("{} is an argument; a function is called by (app {} a)", shown(word), shown(word)),
        _ => {
            let near = meant(word, words_of(sort)).map_or(String::new(), |near| format!("; did you mean {near}?"));
            format!("no {} term is called {}{near}", language(sort), shown(word))
        }
    };
    fault(token.position, message)
}

/// The fault of a word that is no term by itself and no name.
pub fn no_atom(sort: Sort, token: Token<'_>) -> Fault {
    let (word, due) = (token.text, a_term(sort));
    let message = match word {
        "[" | "]" => {
            format!("{word} stands in no recipe; where a term is shown, [[ ]] and << >> only mark a part of it")
        }
        "nil" => "in ML the empty list has its type, as in (nil N)".to_string(),
        "to" => format!("to stands in types alone; here {due} is due"),
        _ if has_word(sort, word) => format!("{word} stands in brackets with what it takes: {}", form(sort, word)),
        _ if is_reserved(word) => format!("{word} is {}'s; here {due} is due", language(other(sort))),
        _ if is_type(word) => format!("{word} is a type; here {due} is due"),
        _ => format!("{} is no {} term", shown(word), language(sort)),
    };
    fault(token.position, message)
}

/// The fault of a name that belongs to the other language, and how its value is brought over.
pub fn others_name(sort: Sort, token: Token<'_>, function: &Function<'_>) -> Fault {
    let (name, whose, due) = (token.text, language(other(sort)), a_term(sort));
    let from = function.name.map_or(String::new(), |(_, position)| format!(", from {position}"));
    let over = match (&function.argument, sort) {
        (Some(t), _) => format!("(sm {} {name}) brings it over", flat(Node::Type(t))),
        (None, Sort::Scheme) => format!("(sm t {name}) brings it over at a type t"),
        (None, _) => format!("(ms t {name}) brings it over at a type t"),
    };
    fault(token.position, format!("{name} is {whose}'s{from}; here {due} is due: {over}"))
}

/// Names that are listed.
const MOST_NAMES: usize = 8;

/// The fault of a name that no function around has, by the names that they have.
pub fn unbound(sort: Sort, token: Token<'_>, names: &[&str]) -> Fault {
    let near = nearest(token.text, names.iter().copied().chain(words_of(sort)));
    let listed = names[..names.len().min(MOST_NAMES)].join(", ");
    let more = if names.len() > MOST_NAMES { ", .." } else { "" };
    let which = match near {
        Some(near) => format!("did you mean {near}?"),
        None if names.is_empty() => format!("no {} name is", language(sort)),
        None => format!("bound are: {listed}{more}"),
    };
    fault(token.position, format!("{} is not bound here; {which}", shown(token.text)))
}

/// The fault of a word that cannot be an argument's name; none if it can.
pub fn no_name(token: Token<'_>) -> Option<Fault> {
    let word = token.text;
    let message = match word {
        _ if is_name(word) => return None,
        "(" | "{" | ")" | "}" => format!("a name is due here, not {word}"),
        _ if is_reserved(word) => format!("{word} has a meaning of its own; choose another name"),
        _ if is_type(word) => format!("{word} is a type; choose another name"),
        _ => format!(
            "{} is no name; a name is a letter, then letters, digits, _ - ? ', and not v and digits",
            shown(word)
        ),
    };
    Some(fault(token.position, message))
}
