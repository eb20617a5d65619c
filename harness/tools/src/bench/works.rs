//! The works on a recipe's steps: on trees, by the engine, and a plain copy of the same words; where it is linked, by the
//! archive of the landing before.

use super::recipes::Recipe;
use super::table::Measured;
use super::timing::{side_by_side, Work};
use crate::{engine, old_engine};
use model::node::Node;
use model::rules::RuleCounts;
use model::run::{reduce, MOST_WORDS};
use model::step::{step, Step};
use model::{check, Ml};
use std::hint::black_box;
use std::rc::Rc;

/// Measures the steps of a recipe that a run under `limit` makes and one under `from` does not.
pub fn measured(recipe: &Recipe, from: u32, limit: u32) -> Measured {
    let file = &recipe.file;
    let tree = check(file).expect("the benchmarks' recipes are accepted").term;
    let sizes = sizes(&tree, limit);
    let lent = lent(&sizes, file.len() / 4);
    let steps = sizes.get(1 + from as usize..).unwrap_or(&[]).to_vec();
    let (count, words) = (steps.len(), steps.iter().sum());
    let (new, old) = (engine::linked_run(), old_engine::linked_run());
    assert!(same_steps(new, old, file, limit, lent), "{}: the old archive makes other steps", recipe.name);
    let mut works = vec![copying(steps, lent)];
    for limit in [from, limit] {
        works.push(on_trees(&tree, limit));
        works.extend(new.map(|run| on_words(run, file, limit, lent)));
        works.extend(old.map(|run| on_words(run, file, limit, lent)));
    }
    let times = side_by_side(&mut works);
    let (copy, mut differences) = differences(&times);
    let mut next = || differences.next().expect("a time for each work");
    let (tree, engine, old) = (next(), new.map(|_| next()), old.map(|_| next()));
    Measured { name: recipe.name.clone(), steps: count, words, lent, tree, engine, old, copy }
}

/// Whether both archives, where both are linked, make as many steps: else a ratio of their times would say nothing.
fn same_steps(new: Option<engine::Run>, old: Option<old_engine::Run>, file: &[u8], limit: u32, lent: usize) -> bool {
    let (mut first, mut second) = (vec![0; lent], vec![0; lent]);
    let new = new.map(|run| run(file, limit, &mut first, &mut second).steps);
    let old = old.map(|run| run(file, limit, &mut first, &mut second).steps);
    old.is_none() || new == old
}

/// The first time, and by how much each of the second half of the others passes its fellow of the first half.
fn differences(times: &[f64]) -> (f64, impl Iterator<Item = f64> + '_) {
    let (before, whole) = times[1..].split_at(times.len() / 2);
    (times[0], before.iter().zip(whole).map(|(before, whole)| whole - before))
}

/// The words of each term that a run reaches, the first included.
pub fn sizes(term: &Rc<Ml>, limit: u32) -> Vec<usize> {
    let mut term = term.clone();
    let mut sizes = vec![Node::Ml(&term).size()];
    for _ in 0..limit {
        match step(&term) {
            Step::Next(_, next) if Node::Ml(&next).size() <= MOST_WORDS => term = next,
            _ => break,
        }
        sizes.push(Node::Ml(&term).size());
    }
    sizes
}

/// The words of a buffer: the largest term's or the file's, rounded up.
pub fn lent(sizes: &[usize], file_words: usize) -> usize {
    let needed = sizes.iter().copied().fold(file_words, usize::max);
    needed.next_multiple_of(64).min(MOST_WORDS)
}

/// The run by the model's reducer.
fn on_trees(term: &Rc<Ml>, limit: u32) -> Work<'_> {
    Box::new(move || {
        black_box(reduce(term.clone(), limit, MOST_WORDS, &mut RuleCounts::default()));
    })
}

/// The run by an archive, whatever it answers with, the file read and checked each time.
fn on_words<A: 'static>(
    run: fn(&[u8], u32, &mut [u32], &mut [u32]) -> A,
    file: &[u8],
    limit: u32,
    lent: usize,
) -> Work<'_> {
    let (mut first, mut second) = (vec![0; lent], vec![0; lent]);
    Box::new(move || {
        black_box(run(black_box(file), limit, &mut first, &mut second));
    })
}

/// Copies so many words for each of the sizes.
fn copying(sizes: Vec<usize>, lent: usize) -> Work<'static> {
    let (from, mut to) = (vec![1_u32; lent], vec![0_u32; lent]);
    Box::new(move || {
        for &size in &sizes {
            to[..size].copy_from_slice(black_box(&from[..size]));
            black_box(&mut to);
        }
    })
}
