//! A run as the page keeps it: the first term, and of each step what it changed.

use super::super::input::Input;
use super::super::walk::{Due, Next, Walk};
use super::super::{Engine, Failure};
use std::collections::HashMap;

/// A word, and the place in the file that it comes from.
pub type Sourced = (u32, usize);

/// A step: the node whose turn it was, and the words that came in its place.
pub struct Change {
    pub due: Due,
    pub put: Vec<Piece>,
}

/// A piece of the words that came in: some of the node's own, from one of them on, or a new word.
pub enum Piece {
    Copied { from: usize, count: usize },
    New(Sourced),
}

/// A run as far as it is shown.
pub struct Record {
    pub first: Vec<Sourced>,
    pub steps: Vec<Change>,
    /// The node whose turn it is after the last step; none at a value and after an error.
    pub next: Option<Due>,
}

/// Makes so many steps of the run of a recipe, which has them, and keeps what each changes.
pub fn record(engine: &Engine, input: &Input, capacity: usize, last: u32) -> Result<Record, Failure> {
    let mut walk = Walk::new(engine, input, capacity)?;
    let first = sourced(&walk, 0, walk.words().len());
    let mut steps = Vec::new();
    while walk.steps() < last {
        let Some(due) = walk.due().copied() else { return Err("the run has fewer steps than the engine made".into()) };
        if let Next::Raised(_) = due.next {
            steps.push(Change { due, put: Vec::new() });
            return Ok(Record { first, steps, next: None });
        }
        let (removed, words) = (sourced(&walk, due.place, due.size), walk.words().len());
        if walk.step()?.is_some() {
            return Err("the run has ended before the engine's did".into());
        }
        let put = sourced(&walk, due.place, walk.words().len() + due.size - words);
        steps.push(Change { due, put: pieces(&removed, &put) });
    }
    walk.confirm()?;
    Ok(Record { first, steps, next: walk.due().copied() })
}

/// So many words of the term, from a place on, each with where it comes from.
fn sourced(walk: &Walk, place: usize, count: usize) -> Vec<Sourced> {
    let words = walk.words().iter().copied();
    words.zip(walk.origins().iter().map(|origin| origin.place)).skip(place).take(count).collect()
}

/// The words put in, as far as they can be copied from those removed.
fn pieces(removed: &[Sourced], put: &[Sourced]) -> Vec<Piece> {
    let places: HashMap<Sourced, usize> = removed.iter().enumerate().map(|(at, word)| (*word, at)).collect();
    let mut pieces = Vec::new();
    let mut at = 0;
    while at < put.len() {
        let piece = match places.get(&put[at]) {
            Some(&from) => Piece::Copied { from, count: alike(&removed[from..], &put[at..]) },
            None => Piece::New(put[at]),
        };
        at += piece.count();
        pieces.push(piece);
    }
    pieces
}

/// How many of the first words are the same.
fn alike(some: &[Sourced], others: &[Sourced]) -> usize {
    some.iter().zip(others).take_while(|(one, other)| one == other).count()
}

impl Piece {
    /// How many words it is.
    fn count(&self) -> usize {
        match self {
            Piece::Copied { count, .. } => *count,
            Piece::New(_) => 1,
        }
    }
}
