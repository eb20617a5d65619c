//! Numbers in a text: digits, with `_` between them where a writer likes.

use super::spelling::{are_digits, shown};
use crate::kinds::Kind;

/// Whether a word is a number, or is meant as one: a digit comes first, or behind a sign or a point.
pub fn is_number(word: &str) -> bool {
    let digits = word.strip_prefix(['-', '+', '.']).unwrap_or(word);
    digits.starts_with(|letter: char| letter.is_ascii_digit())
}

/// The operand of a kind that a word gives, `what` being what the operand is; or what is wrong with it.
pub fn operand(row: &Kind, word: &str, what: &str) -> Result<u32, String> {
    let range = format!("a {what} is {} to {}", row.least, row.most);
    let told = shown(word);
    let plain: String = word.chars().filter(|letter| *letter != '_').collect();
    if plain.is_empty() || !are_digits(&plain) {
        return Err(no_number(word, what, &range));
    }
    if word.starts_with('_') || word.ends_with('_') || word.contains("__") {
        return Err(format!("{told} has a _ that is not between two digits"));
    }
    match plain.parse::<u32>() {
        Ok(operand) if operand < row.least => Err(format!("{told} is no {what}; {range}")),
        Ok(operand) if operand <= row.most => Ok(operand),
        _ => Err(format!("{told} is too large; {range}")),
    }
}

/// What is wrong with a word that is not digits alone.
fn no_number(word: &str, what: &str, range: &str) -> String {
    let told = shown(word);
    let without_commas = word.replace(',', "");
    let whole = |part: &str| !part.is_empty() && are_digits(part);
    if word.starts_with(['-', '+']) {
        format!("{told} has a sign; {range}")
    } else if word.ends_with(',') && whole(&without_commas) {
        format!("{told} ends with a comma; between items stand blanks alone")
    } else if word.contains(',') && whole(&without_commas) {
        format!("{told} has a comma; write {} or put _ for it", shown(&without_commas))
    } else if word.contains('.') && word.split('.').all(|part| part.is_empty() || whole(part)) {
        format!("{told} is no whole number; {range}")
    } else {
        format!("{told} is no {what}; {range}")
    }
}
