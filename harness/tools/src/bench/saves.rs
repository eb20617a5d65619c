//! A save against the check of the file that it writes: whole calls, the save with its writing and clearing.

use super::recipes::{plain, recipes, Recipe};
use super::table::figure;
use super::timing::{side_by_side, Work};
use crate::engine::{linked_check, linked_save, Check, Save};
use model::file::{regions, words_of, MOST_BYTES};
use std::hint::black_box;

/// What was measured of a file, in seconds for a call.
pub struct Saved {
    pub name: String,
    /// Of the whole file.
    pub words: usize,
    /// None where the engine is not linked.
    pub check: Option<f64>,
    pub save: Option<f64>,
}

/// Rows for plain files of growing size, and one for each recipe that is run.
pub fn tables() -> Vec<String> {
    let files = [16, 512, 1_024, 2_048, 4_080].map(plain).into_iter().chain(recipes());
    [head()].into_iter().chain(files.map(|recipe| measured(recipe).row())).collect()
}

/// The line that stands over the columns.
pub fn head() -> String {
    format!("{:<34} {:>6} {:>10} {:>10} {:>10}", "file", "words", "check, ns", "save, ns", "save/check")
}

impl Saved {
    /// The row's text.
    pub fn row(&self) -> String {
        let Saved { name, words, check, save } = self;
        let nanoseconds = |seconds: &Option<f64>| figure(seconds.map(|seconds| 1e9 * seconds));
        let ratio = figure(check.zip(*save).map(|(check, save)| save / check));
        format!("{name:<34} {words:>6} {:>10} {:>10} {ratio:>10}", nanoseconds(check), nanoseconds(save))
    }
}

/// Times both calls of a file, in turn.
fn measured(recipe: Recipe) -> Saved {
    let Recipe { name, file } = recipe;
    let words = file.len() / 4;
    let Some((check, save)) = linked_check().zip(linked_save()) else {
        return Saved { name, words, check: None, save: None };
    };
    let times = side_by_side(&mut [checking(check, &file), saving(save, &file)]);
    Saved { name, words, check: Some(times[0]), save: Some(times[1]) }
}

/// The check of a file.
fn checking(check: Check, file: &[u8]) -> Work<'_> {
    Box::new(move || {
        black_box(check(black_box(file)));
    })
}

/// The save of a file's words in a buffer that serves every file.
fn saving(save: Save, file: &[u8]) -> Work<'static> {
    let words = words_of(file).expect("the benchmarks' recipes are accepted");
    let regions = regions(&words).expect("the benchmarks' recipes are accepted");
    let (declared, term, mut out) = (regions.declared.to_vec(), regions.term.to_vec(), vec![0; MOST_BYTES]);
    Box::new(move || {
        black_box(save(black_box(&declared), black_box(&term), &mut out));
    })
}
