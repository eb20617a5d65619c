//! A file shown readably: its words, and its term as an s-expression where the words are in order.

use model::check::{read_recipe, read_words};
use model::file::words_of;
use model::node::Node;
use model::text::{describe, flat, pretty, Style};
use std::fmt::Write;

/// Items, or rows of the same item, that are listed.
const MOST_LISTED: usize = 120;

pub fn show_file(bytes: &[u8]) -> String {
    let mut text = String::new();
    let Ok(words) = words_of(bytes) else {
        let _ = writeln!(text, "file of {} bytes: {}", bytes.len(), list(bytes));
        return text;
    };
    let _ = writeln!(text, "words:    {}", list(&words));
    match read_recipe(bytes, usize::MAX) {
        Ok(recipe) => {
            let _ = writeln!(text, "declared: {}", flat(Node::Type(&recipe.declared)));
            let _ = writeln!(
                text,
                "term:     {}",
                pretty(Node::Ml(&recipe.term), &Style::PLAIN).replace('\n', "\n          ")
            );
        }
        Err(refusal) => {
            let word = words.get(refusal.place as usize).filter(|_| refusal.number == 3);
            let what = word.map_or(String::new(), |word| format!(" ({word}: {})", describe(*word)));
            let _ = writeln!(text, "not in order: {} at place {}{what}", refusal.number, refusal.place);
        }
    }
    text
}

/// Words of a type and of a term, and what they say where they are in order.
pub fn show_words(declared: &[u32], term: &[u32]) -> String {
    let mut text = format!("type:     {}\nterm:     {}\n", list(declared), list(term));
    if let Ok(recipe) = read_words(declared, term, usize::MAX) {
        let _ = writeln!(text, "declared: {}", flat(Node::Type(&recipe.declared)));
        let _ =
            writeln!(text, "says:     {}", pretty(Node::Ml(&recipe.term), &Style::PLAIN).replace('\n', "\n          "));
    }
    text
}

/// The items in order, a longer row of the same one written once with its count.
pub fn list<T: ToString + PartialEq>(items: &[T]) -> String {
    let groups: Vec<&[T]> = items.chunk_by(|a, b| a == b).collect();
    let shown: Vec<String> = groups.iter().take(MOST_LISTED).map(|group| row(group)).collect();
    let more = if groups.len() > MOST_LISTED { format!(" ... ({} in all)", items.len()) } else { String::new() };
    shown.join(" ") + &more
}

fn row<T: ToString>(same: &[T]) -> String {
    match same {
        [item, _, _, _, _, ..] => format!("{}(x{})", item.to_string(), same.len()),
        _ => same.iter().map(T::to_string).collect::<Vec<_>>().join(" "),
    }
}
