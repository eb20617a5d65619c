//! A run that comes back to a term that it has had: it repeats the steps between for ever.

use super::carried::{Carried, Carry};
use super::input::Input;
use model::run::MOST_WORDS;
use std::collections::hash_map::DefaultHasher;
use std::collections::HashMap;
use std::hash::{Hash, Hasher};

/// Terms that are remembered at most, so that memory is bounded.
const MOST_TERMS: usize = 1 << 20;

/// The terms of a run, each by a number that equal terms have in common, with the first step that had it.
#[derive(Default)]
pub struct Repeats {
    seen: HashMap<u64, u32>,
}

impl Repeats {
    /// The earlier step whose term is the one of this step, if there is one.
    pub fn earlier(&mut self, input: &Input, words: &[u32], step: u32) -> Option<u32> {
        let mut hasher = DefaultHasher::new();
        words.hash(&mut hasher);
        let number = hasher.finish();
        if let Some(earlier) = self.seen.get(&number) {
            return Some(*earlier).filter(|earlier| is_term(input, *earlier, words));
        }
        if self.seen.len() < MOST_TERMS {
            self.seen.insert(number, step);
        }
        None
    }
}

/// Whether a step of the run has these words for its term, found by making the steps again.
fn is_term(input: &Input, step: u32, words: &[u32]) -> bool {
    let Ok(mut carried) = Carried::of(input) else { return false };
    while carried.steps < step && carried.step(MOST_WORDS) == Carry::Made {}
    carried.steps == step && carried.term.words == words
}
