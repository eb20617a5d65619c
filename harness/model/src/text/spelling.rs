//! The words that a text has a meaning for, the names that a writer may choose, and what comes nearest to a word that is misspelt.

use super::names::headed;
use crate::kinds::Sort;

/// Words that name nothing else: the heads of both languages, and what stands between the types of a function.
const RESERVED: [&str; 21] = [
    "fn",
    "lambda",
    "app",
    "application",
    "fix",
    "add",
    "subtract",
    "if0",
    "nil",
    "cons",
    "hd",
    "tl",
    "null?",
    "fun?",
    "list?",
    "num?",
    "wrong",
    "ms",
    "sm",
    "let",
    "to",
];

/// Letters of a word from outside that a message shows.
const MOST_SHOWN: usize = 40;

/// Letters of a word for which a nearest one is looked for.
const MOST_SPELT: usize = 20;

/// Whether a word has a meaning of its own in a text.
pub fn is_reserved(word: &str) -> bool {
    RESERVED.contains(&word)
}

/// Whether a word is a type by itself, or is meant as one: N, or L and digits.
pub fn is_type(word: &str) -> bool {
    word == "N" || word.strip_prefix('L').is_some_and(are_digits)
}

/// The digits of a variable by its number: `v` and digits.
pub fn variable_digits(word: &str) -> Option<&str> {
    word.strip_prefix('v').filter(|digits| !digits.is_empty() && are_digits(digits))
}

/// Whether a writer may call an argument by this word: a letter, then letters, digits, `_`, `-`, `?` and `'`.
pub fn is_name(word: &str) -> bool {
    let letters = |letter: u8| letter.is_ascii_alphanumeric() || b"_-?'".contains(&letter);
    let spelt = word.starts_with(|letter: char| letter.is_ascii_alphabetic()) && word.bytes().all(letters);
    spelt && !is_reserved(word) && !is_type(word) && variable_digits(word).is_none()
}

/// Whether all letters are digits.
pub fn are_digits(text: &str) -> bool {
    text.bytes().all(|letter| letter.is_ascii_digit())
}

/// Whether a language has a word that stands first in brackets, or as Scheme's nil alone.
pub fn has_word(sort: Sort, word: &str) -> bool {
    word == "let" || (word == "nil" && sort == Sort::Scheme) || headed(sort, word).is_some()
}

/// The words of a language.
pub fn words_of<'a>(sort: Sort) -> impl Iterator<Item = &'a str> {
    RESERVED.into_iter().filter(move |word| has_word(sort, word))
}

/// A word from outside as a message shows it: letters that cannot be seen are spelt out, and a long one is cut.
pub fn shown(word: &str) -> String {
    let start: String = word.chars().take(MOST_SHOWN).flat_map(char::escape_debug).collect();
    match word.chars().nth(MOST_SHOWN) {
        Some(_) => start + "..",
        None => start,
    }
}

/// What other languages say for a word of ours.
const MEANT: [(&str, &str); 10] = [
    ("+", "add"),
    ("-", "subtract"),
    ("car", "hd"),
    ("head", "hd"),
    ("cdr", "tl"),
    ("tail", "tl"),
    ("apply", "app"),
    ("call", "app"),
    ("error", "wrong"),
    ("raise", "wrong"),
];

/// The word of ours that was meant: by what other languages say, or the one among some that is spelt most alike.
pub fn meant<'a>(word: &str, among: impl Iterator<Item = &'a str>) -> Option<&'a str> {
    let other = MEANT.iter().find(|(other, _)| *other == word).map(|(_, ours)| *ours);
    other.or_else(|| nearest(word, among))
}

/// The word among some that is spelt most alike, if one is alike enough.
pub fn nearest<'a>(word: &str, among: impl Iterator<Item = &'a str>) -> Option<&'a str> {
    let length = word.chars().count();
    if length > MOST_SPELT {
        return None;
    }
    let most = (length / 3).clamp(1, 2);
    let far = among.map(|other| (distance(word, other), other));
    let near = far.filter(|(far, other)| *far <= most && *far < length.min(other.len()));
    near.min_by_key(|(far, _)| *far).map(|(_, other)| other)
}

/// How many letters have to be put in, left out or exchanged to make one word of the other.
fn distance(one: &str, other: &str) -> usize {
    let other: Vec<char> = other.chars().collect();
    let mut row: Vec<usize> = (0..=other.len()).collect();
    for (line, letter) in one.chars().enumerate() {
        let mut before = row[0];
        row[0] = line + 1;
        for (at, known) in other.iter().enumerate() {
            let exchanged = before + usize::from(*known != letter);
            before = row[at + 1];
            row[at + 1] = exchanged.min(row[at] + 1).min(before + 1);
        }
    }
    row[other.len()]
}
