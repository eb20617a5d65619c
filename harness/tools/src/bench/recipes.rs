//! The recipes of the benchmarks, as texts.

use crate::make::cans::{can_text, counted_down};
use crate::make::{file_of_text, sum};

/// A recipe to measure: its name in a table, and its file.
pub struct Recipe {
    pub name: String,
    pub file: Vec<u8>,
}

/// The recipe of a text.
fn recipe(name: impl Into<String>, text: &str) -> Recipe {
    Recipe { name: name.into(), file: file_of_text(text) }
}

/// The recipes whose runs are measured; a name has at most 24 letters.
pub fn recipes() -> Vec<Recipe> {
    vec![
        recipe("fix countdown from 500", &format!("N {}", countdown("0", 500))),
        recipe("80 through a pump curve", &mapped(80)),
        recipe("wrappers 5 deep, called", &wrapped(5, 50)),
        recipe("4,000-word curve", &format!("{{{{N}}}} (ms {{{{N}}}} {})", curve(60, 32))),
        recipe("tree of 1,000 sums", &format!("N {}", sums(1_000))),
        recipe("sums nested 250 deep", &format!("N {}", nested("(add 1 ", 250, "1"))),
    ]
}

/// Cans of nine items: as a value, through a pump curve, counted down, and sums in a long file.
pub fn cans() -> Vec<Recipe> {
    let items: Vec<String> = (0..9).map(|pump| (pump * 12_345).to_string()).collect();
    let sums = vec![sums(200); 9];
    vec![
        recipe("nine items as a value", &format!("{{N}} {}", can_text(&items))),
        recipe("nine through a pump curve", &mapped(9)),
        recipe("nine counted down", &format!("{{N}} {}", counted_down(9))),
        recipe("nine sums of 200 in 3,600 words", &format!("{{N}} {}", can_text(&sums))),
    ]
}

/// A node that spins behind four lists of so many rows.
pub fn spinning_last(rows: usize) -> Recipe {
    let body = nested("(cons v0 ", 4, "(fix (fn {{{N}}} v0))");
    recipe(format!("last, 4 x {rows} rows"), &format!("{{{{{{N}}}}}} {}", with_rows(&body, rows)))
}

/// A node that spins before four lists of so many rows.
pub fn spinning_first(rows: usize) -> Recipe {
    let lists = nested("(cons v0 ", 4, "(nil {{N}})");
    let body = format!("(cons (fix (fn {{{{N}}}} v0)) {lists})");
    recipe(format!("first, 4 x {rows} rows"), &format!("{{{{{{N}}}}}} {}", with_rows(&body, rows)))
}

/// A body with a list of so many rows of ten numbers for its variable.
fn with_rows(body: &str, rows: usize) -> String {
    let row = numbers(10);
    let list = (0..rows).fold("(nil {N})".to_string(), |rest, _| format!("(cons {row} {rest})"));
    format!("(app (fn {{{{N}}}} {body}) {list})")
}

/// A plain tree of sums with about so many words.
pub fn plain(words: usize) -> Recipe {
    recipe(format!("a tree of sums, {words} words"), &format!("N {}", sums(words / 2)))
}

/// A function that counts its argument down, applied.
fn countdown(at_zero: &str, from: usize) -> String {
    format!("(app (fix (fn (N to N) (fn N (if0 v0 {at_zero} (app v1 (subtract v0 1)))))) {from})")
}

/// A list of so many numbers mapped through a pump curve, a Scheme function that is wrapped anew for each of them.
fn mapped(elements: usize) -> String {
    let curve = "(ms (N to N) (fn (add v0 (subtract v0 3))))";
    let map = format!(
        "(fix (fn ({{N}} to {{N}}) (fn {{N}} (if0 (null? v0) (nil N) (cons (app {curve} (hd v0)) (app v1 (tl v0)))))))"
    );
    format!("{{N}} (app {map} {})", numbers(elements))
}

/// A function in so many wrappers, called so many times.
fn wrapped(deep: usize, times: usize) -> String {
    let function = (0..deep).fold("(fn N (add v0 1))".to_string(), |f, _| format!("(ms (N to N) (sm (N to N) {f}))"));
    let again = format!("(if0 v0 0 (app (fn N (app v2 (subtract v1 1))) (app {function} v0)))");
    format!("N (app (fix (fn (N to N) (fn N {again}))) {times})")
}

/// A list of so many numbers.
fn numbers(elements: usize) -> String {
    (0..elements).fold("(nil N)".to_string(), |rest, n| format!("(cons {n} {rest})"))
}

/// Scheme lists of numbers in a Scheme list.
fn curve(rows: usize, elements: usize) -> String {
    let row = (0..elements).fold("nil".to_string(), |rest, n| format!("(cons {n} {rest})"));
    (0..rows).fold("nil".to_string(), |rest, _| format!("(cons {row} {rest})"))
}

/// A balanced tree of sums with so many leaves.
fn sums(leaves: usize) -> String {
    sum(&vec!["1".to_string(); leaves])
}

/// The same opened so many times around an inner term.
fn nested(open: &str, deep: usize, inner: &str) -> String {
    format!("{}{inner}{}", open.repeat(deep), ")".repeat(deep))
}
