//! Files from recipes written as text.

use model::file::file;
use model::text::parse_recipe;

/// The recipe file of a text that is known to be one.
pub fn file_of_text(text: &str) -> Vec<u8> {
    let parsed = parse_recipe(text).unwrap_or_else(|fault| panic!("{fault}\n{text}"));
    file(&parsed.declared, &parsed.term)
}

/// A sum of terms that nests little.
pub fn sum(terms: &[String]) -> String {
    match terms {
        [] => "0".into(),
        [term] => term.clone(),
        _ => {
            let (first, second) = terms.split_at(terms.len() / 2);
            format!("(add {} {})", sum(first), sum(second))
        }
    }
}
