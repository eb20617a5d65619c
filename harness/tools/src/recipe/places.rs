//! What a file's words say at a place: the header, the words around it, and what is due there.

use model::file::{regions, words_of, Regions};
use model::kinds::{due, Sort, LUMP};
use model::text::describe;
use std::fmt::Write;

/// Words shown before and behind a place.
const AROUND: usize = 4;

/// The four words of the header, and what is due where one is not in order.
pub fn header(words: &[u32]) -> String {
    let [types, type_offset, terms, term_offset] = [0, 1, 2, 3].map(|at| u64::from(words[at]));
    let (first, sum, length) = (4 + types, term_offset + terms, words.len() as u64);
    let least = || "; at least 1 is due".to_string();
    let rows = [
        ("type count", types, (types == 0).then(least)),
        ("type offset", type_offset, (type_offset != 4).then(|| "; 4 is due".to_string())),
        ("term count", terms, (terms == 0).then(least)),
        ("term offset", term_offset, (term_offset != first).then(|| format!("; {first} is due"))),
    ];
    let mut text = String::new();
    for (at, (name, word, fault)) in rows.into_iter().enumerate() {
        let _ = writeln!(text, "  word {at:>4}: {word:>10}  {name}{}", fault.unwrap_or_default());
    }
    let _ = writeln!(text, "  term offset and term count make {sum}; the file has {length} words");
    text
}

/// The words around a place, and what is due there.
pub fn around(bytes: &[u8], place: usize) -> String {
    let Ok(words) = words_of(bytes) else { return String::new() };
    let mut text = String::new();
    let from = place.saturating_sub(AROUND).max(4.min(place));
    for (at, word) in words.iter().enumerate().skip(from).take(2 * AROUND + 1) {
        let here = if at == place { "  <- here" } else { "" };
        let _ = writeln!(text, "  word {at:>4}: {word:>10}  {}{here}", describe(*word));
    }
    if place >= words.len() {
        let _ = writeln!(text, "  word {place:>4}: the file ends here");
    }
    text
}

/// A sentence on what is due at the first word that is not in order.
pub fn due_at(bytes: &[u8], place: usize) -> String {
    let Ok(words) = words_of(bytes) else { return String::new() };
    let Ok(Regions { declared, term }) = regions(&words) else { return String::new() };
    let terms = 4 + declared.len();
    let in_type = place < terms || (place == terms && next_due(declared, Sort::Type).is_some());
    let (name, region, start, sort) =
        if in_type { ("declared type", declared, 4, Sort::Type) } else { ("term", term, terms, Sort::Ml) };
    let before = &region[..place.saturating_sub(start).min(region.len())];
    match next_due(before, sort) {
        None => format!("  the {name} is complete before word {place}: nothing more is due\n"),
        Some(sort) if before.len() < region.len() => {
            let owner = if sort == Sort::Type { owner_over(region[before.len()]) } else { "" };
            format!("  {} is due at word {place}{owner}\n", called(sort))
        }
        Some(sort) => format!("  {} is still due where the {name}'s words end\n", called(sort)),
    }
}

/// What is said of a lump whose owner is over the last.
fn owner_over(word: u32) -> &'static str {
    match word % 256 == LUMP {
        true => "; the owner of an L is 0 to 255",
        false => "",
    }
}

/// What is due behind the words, which are in order; none where they are a whole node of the sort.
fn next_due(words: &[u32], sort: Sort) -> Option<Sort> {
    let mut dues = vec![sort];
    for word in words {
        let row = due(*word, dues.pop()?)?;
        dues.extend(row.parts.iter().rev());
    }
    dues.pop()
}

/// A sort in a sentence.
fn called(sort: Sort) -> &'static str {
    match sort {
        Sort::Type => "a type",
        Sort::Ml => "an ML term",
        Sort::Scheme => "a Scheme term",
    }
}
