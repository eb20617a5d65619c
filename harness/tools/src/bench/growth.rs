//! How the cost of a step grows with the words of the term.

use super::recipes::{spinning_first, spinning_last, Recipe};
use super::table::head;
use super::works::measured;
use crate::old_engine::linked_run;

/// Rows of the list that stands four times in the term: terms of some 200 to 16,000 words.
const SIZES: [usize; 5] = [2, 10, 43, 87, 173];

/// The step that puts the list into the term.
const BEFORE: u32 = 1;

/// Steps measured after it.
const STEPS_MEASURED: u32 = 200;

/// What is measured here.
const ABOUT: &str = "\
A node that spins, (fix (fn t v0)), in a term of more and more words: a step leaves the term as it was. A first step,
which is not measured, puts a list into the term at four places, since a file holds no more than 4,096 words.";

/// Two tables: the spinning node behind all other words, and before them.
pub fn tables() -> Vec<String> {
    let mut lines = vec![ABOUT.to_string()];
    lines.extend(table("The spinning node comes last: all words stand before it.", spinning_last));
    lines.extend(table("The spinning node comes first: all words stand behind it.", spinning_first));
    lines
}

/// The rows of one kind of term, from small to large.
fn table(about: &str, make: fn(usize) -> Recipe) -> Vec<String> {
    let rows = SIZES.map(|rows| measured(&make(rows), BEFORE, BEFORE + STEPS_MEASURED).row());
    ["".to_string(), about.to_string()].into_iter().chain(head(linked_run().is_some())).chain(rows).collect()
}
