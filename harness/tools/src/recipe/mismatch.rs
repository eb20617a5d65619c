//! What refusals 6 and 7 say of types: those that are due at the node that the engine names and those found there, or the declared
//! type beside the one that the term has.

use model::check::DECLARED;
use model::kinds::kind;
use model::node::{ml_words, Node};
use model::nodes::size_at;
use model::owners::{differing, Within};
use model::text::{flat, flat_marked, head};
use model::typing::{difference, type_of, Mismatch};
use model::untyped::{untyped_at, Untyped};
use model::{Recipe, Type};
use std::rc::Rc;

/// The node at a place of the file, if it has no type, or is not well formed, while all its parts are in order.
fn node_at(recipe: &Recipe, place: usize) -> Option<Untyped> {
    untyped_at(&recipe.term, place.checked_sub(recipe.start())?)
}

/// The place of the part that does not fit in the node at a place; none where two parts are of two types.
pub fn part_at_fault(recipe: &Recipe, place: usize) -> Option<usize> {
    let node = node_at(recipe, place)?;
    let part = match (node.kind, &node.mismatch) {
        (_, Mismatch::Unbound) | (IF0, Mismatch::Another { part: 2, .. }) => return None,
        (_, Mismatch::Another { part, .. }) => *part,
        _ => 0,
    };
    let words = ml_words(&recipe.term);
    let at = (0..part).fold(node.before + 1, |at, _| at + size_at(&words, at));
    Some(recipe.start() + at)
}

/// The kind of ML's if0.
const IF0: u32 = 23;

/// Why the node at a place of the file has no type, or is not well formed: what is due there, what is found, and the owners where they
/// alone are at fault. Where its part stands in the text is told in the sentence.
pub fn no_type(recipe: &Recipe, place: usize, at: &str) -> String {
    let Some(node) = node_at(recipe, place) else {
        return format!(
            "  the engine is wrong: at word {place} is no node that has no type while all its parts are in order\n"
        );
    };
    let (what, why) = reason(&node);
    format!("  {what}{at} {why}\n{}{}", types(&node), parts(&node))
        + &node.mismatch.unequal().map_or(String::new(), owners)
}

/// The declared type and the one that the term has, the first word in which they differ in double brackets, and the owners where they
/// alone differ.
pub fn another_type(recipe: &Recipe, place: usize) -> String {
    let Some(found) = type_of(&recipe.term) else { return "  the engine is wrong: the term has no type\n".into() };
    let types = [recipe.declared.clone(), found];
    let word = difference(&types[0], &types[1]);
    let both = beside(["declared:", "found:"], &types, word);
    match word.map(|word| DECLARED + word) {
        Some(first) if first == place => both + &owners(types),
        Some(first) => {
            both + &format!(
                "  the engine is wrong: it names word {place}, and word {first} is the first that differs\n"
            )
        }
        None => both + "  the engine is wrong: the two types are equal\n",
    }
}

/// Which part of a node does not fit, and why.
fn reason(node: &Untyped) -> (String, &'static str) {
    let name = kind(node.kind).map_or("", |row| head(row, 0));
    let (what, why) = match (node.kind, &node.mismatch) {
        (_, Mismatch::Unbound) => ("a variable", "has no lambda"),
        (19, Mismatch::NoFunction(_)) => ("the first part of app", "is no function"),
        (_, Mismatch::NoFunction(_)) => return (format!("the part of {name}"), "is no function"),
        (_, Mismatch::NoList(_)) => return (format!("the part of {name}"), "is no list"),
        (_, Mismatch::Sides(_)) => return (format!("the function of {name}"), "takes one type and gives another"),
        (19, _) => ("the second part of app", "is not of the type that the function takes"),
        (IF0, Mismatch::Another { part: 2, .. }) => ("the second and the third part of if0", "are of two types"),
        (25, _) => ("the second part of cons", "is no list of what the first part is"),
        (45, _) => ("the term of sm", "is not of the type that sm names"),
        (_, Mismatch::Another { part, .. }) => {
            let which = ["first", "second", "third"][*part % 3];
            return (format!("the {which} part of {name}"), "is no number");
        }
    };
    (what.to_string(), why)
}

/// The types that are due and found, each on its line.
fn types(node: &Untyped) -> String {
    let alone = |due: &str, found: &Rc<Type>| {
        format!("  due:   {due}\n  found: {}\n", cut(&flat(Node::Type(found)), 0, LETTERS))
    };
    match &node.mismatch {
        Mismatch::Unbound => String::new(),
        Mismatch::NoFunction(found) if node.kind == 20 => alone("a function, (t to t)", found),
        Mismatch::NoFunction(found) => alone("a function, (t to u)", found),
        Mismatch::NoList(found) => alone("a list, {t}", found),
        Mismatch::Sides(sides) => unlike(["takes:", "gives:"], sides),
        Mismatch::Another { part: 2, due, found } => unlike(["second:", "third:"], &[due.clone(), found.clone()]),
        Mismatch::Another { due, found, .. } => unlike(["due:", "found:"], &[due.clone(), found.clone()]),
    }
}

/// The types of the parts in their order, where there are several and not all are told already; a long one is cut to its share of
/// the line.
fn parts(node: &Untyped) -> String {
    let several = node.parts.len();
    if several < 2 || matches!(node.mismatch, Mismatch::Another { part: 2, .. }) {
        return String::new();
    }
    let share = (LETTERS - ", ".len() * (several - 1)) / several;
    let types: Vec<String> = node.parts.iter().map(|t| cut(&flat(Node::Type(t)), 0, share)).collect();
    format!("  parts: {}\n", types.join(", "))
}

/// Two types that were to be equal; where they begin alike, the first word in which they differ is marked.
fn unlike(names: [&str; 2], types: &[Rc<Type>; 2]) -> String {
    beside(names, types, difference(&types[0], &types[1]).filter(|word| *word > 0))
}

/// Letters of a type in a line, so that a line with its name fits a terminal of 80 columns.
const LETTERS: usize = 68;

/// Letters that are shown before the place where a cut type is marked.
const BEFORE: usize = 24;

/// Two types, each behind its name, with the node at a word of both in double brackets. Long types are cut to a window around it.
fn beside(names: [&str; 2], types: &[Rc<Type>; 2], word: Option<usize>) -> String {
    let texts = types.each_ref().map(|t| flat_marked(Node::Type(t), word));
    let width = names.iter().map(|name| name.len()).max().unwrap_or(0);
    // Up to the mark the two are the same, so the windows begin alike.
    let from = match texts.iter().all(|text| text.len() <= LETTERS) {
        true => 0,
        false => texts[0].find("[[").map_or(0, |at| start(&texts[0], at)),
    };
    let lines = names.iter().zip(&texts).map(|(name, text)| format!("  {name:<width$} {}\n", cut(text, from, LETTERS)));
    lines.collect()
}

/// Where a window begins that shows what is marked at a place.
fn start(text: &str, at: usize) -> usize {
    let from = at.saturating_sub(BEFORE);
    (from..at).find(|from| *from == 0 || is_gap(text, *from)).unwrap_or(at)
}

/// Whether a text may be cut before a letter: not in a name and not in a double bracket.
fn is_gap(text: &str, at: usize) -> bool {
    let (before, behind) = (text.as_bytes()[at - 1], text.as_bytes()[at]);
    let in_name = before.is_ascii_alphanumeric() && behind.is_ascii_alphanumeric();
    !in_name && !(before == behind && b"[]".contains(&before))
}

/// The text from a letter on, at most so many letters of it, `..` standing for what is missing.
fn cut(text: &str, from: usize, most: usize) -> String {
    let before = if from > 0 { ".. " } else { "" };
    let shown = text[from..].trim_start();
    if before.len() + shown.len() <= most {
        return format!("{before}{shown}");
    }
    let room = most - before.len() - " ..".len();
    let end = (1..=room).rev().find(|at| is_gap(shown, *at)).unwrap_or(room);
    format!("{before}{} ..", shown[..end].trim_end())
}

/// Letters of a type that are shown in a line of advice.
const MOST_LETTERS: usize = 40;

/// Of two types that differ in owners alone, the first owners that do, and how a value gets from the one to the other.
fn owners([due, found]: [Rc<Type>; 2]) -> String {
    let first = differing(&due, &found).and_then(|all| all.into_iter().next());
    let Some(first) = first else { return String::new() };
    let [due, found] = [due, found].map(|t| flat(Node::Type(&t)));
    let short = due.len().max(found.len()) <= MOST_LETTERS;
    let types = if first.within != Within::Alone && short { format!(": {found} for {due}") } else { String::new() };
    let advice = if short { format!(": (ms {due} (sm {found} e))") } else { String::new() };
    format!(
        "  a lump of owner {} stands where one of owner {} is due{types}\n  \
         a Scheme script may open it and have it sealed for the other owner{advice}\n",
        first.found, first.due
    )
}
