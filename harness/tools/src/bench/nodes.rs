//! The reader of nodes with its short way for words without parts, and without it: all places of a term asked about in turn.

use super::recipes::{recipes, Recipe};
use super::table::figure;
use super::timing::{side_by_side, Work};
use crate::engine::{linked_node, linked_node_walked, Node};
use model::file::{regions, words_of};
use model::nodes::size_at;
use std::hint::black_box;

/// What was measured of some places of a term, in seconds for all of them together.
pub struct Asked {
    pub name: String,
    /// Which places they are.
    pub at: &'static str,
    pub places: usize,
    /// None where the engine is not linked.
    pub before: Option<f64>,
    pub after: Option<f64>,
}

/// The names of the recipes whose terms are asked about: the curve of the request first.
const NAMES: [&str; 4] = ["4,000-word curve", "80 through a pump curve", "tree of 1,000 sums", "sums nested 250 deep"];

/// Two rows for each recipe: the places whose whole node is one word, and all places.
pub fn tables() -> Vec<String> {
    let recipes = recipes();
    let named = NAMES.iter().filter_map(|name| recipes.iter().find(|recipe| recipe.name == *name));
    let rows = named.flat_map(rows).map(|asked| asked.row());
    head().into_iter().chain(rows).collect()
}

/// The lines that stand over the columns.
pub fn head() -> [String; 2] {
    let groups = format!(
        "{:<24} {:<14} {:>6}{:>22}{:>22}{:>9}",
        "", "", "", "microseconds for all", "nanoseconds each", "before/"
    );
    let names = ["before", "after", "before", "after"].map(|name| format!("{name:>11}")).concat();
    [groups, format!("{:<24} {:<14} {:>6}{names}{:>9}", "term", "asked at", "places", "after")]
}

impl Asked {
    /// The row's text.
    pub fn row(&self) -> String {
        let Asked { name, at, places, before, after } = self;
        let all = [before, after].map(|seconds| figure(seconds.map(|seconds| 1e6 * seconds)));
        let each = [before, after].map(|seconds| figure(seconds.map(|seconds| 1e9 * seconds / *places as f64)));
        let times = [all, each].concat().iter().map(|time| format!("{time:>11}")).collect::<String>();
        let ratio = figure(before.zip(*after).map(|(before, after)| before / after));
        format!("{name:<24} {at:<14} {places:>6}{times}{ratio:>9}")
    }
}

/// Both rows of a recipe's term.
fn rows(recipe: &Recipe) -> [Asked; 2] {
    let words = words_of(&recipe.file).expect("the benchmarks' recipes are accepted");
    let term = regions(&words).expect("the benchmarks' recipes are accepted").term;
    let one_word = (0..term.len()).filter(|&at| size_at(term, at) == 1).collect();
    let places = [("one-word nodes", one_word), ("every place", (0..term.len()).collect::<Vec<_>>())];
    places.map(|(at, places)| measured(&recipe.name, term, at, &places))
}

/// Times both ways at the places, in turn.
fn measured(name: &str, term: &[u32], at: &'static str, places: &[usize]) -> Asked {
    let (name, count) = (name.to_string(), places.len());
    let Some((walked, node)) = linked_node_walked().zip(linked_node()) else {
        return Asked { name, at, places: count, before: None, after: None };
    };
    let times = side_by_side(&mut [asking(walked, term, places), asking(node, term, places)]);
    Asked { name, at, places: count, before: Some(times[0]), after: Some(times[1]) }
}

/// One way asked at all the places.
fn asking<'a>(node: Node, term: &'a [u32], places: &'a [usize]) -> Work<'a> {
    Box::new(move || {
        for &at in places {
            black_box(node(black_box(term), black_box(at)));
        }
    })
}
