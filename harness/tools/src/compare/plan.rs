//! Limits and capacities for a file: 0, 1, random and large; exact, one less, zero and unequal.

use super::case::Case;
use crate::random::Random;
use model::check;
use model::node::Node;
use model::run::MOST_WORDS;
use model::step::{step, Step};

/// The words of each term that a reduction reaches, as far as it was followed.
pub struct Followed {
    sizes: Vec<usize>,
    /// Whether the reduction ends there: by itself or because no capacity serves the next term.
    pub ends: bool,
}

/// Steps that a reduction is followed, so that no run is longer.
pub const FOLLOWED: usize = 250;

pub fn follow(file: &[u8]) -> Followed {
    let Ok(recipe) = check(file) else { return Followed { sizes: vec![6], ends: true } };
    let mut term = recipe.term;
    let mut sizes = vec![Node::Ml(&term).size()];
    for _ in 0..FOLLOWED {
        let Step::Next(_, next) = step(&term) else { return Followed { sizes, ends: true } };
        let size = Node::Ml(&next).size();
        if size > MOST_WORDS {
            return Followed { sizes, ends: true };
        }
        term = next;
        sizes.push(size);
    }
    Followed { sizes, ends: false }
}

impl Followed {
    pub fn largest(&self) -> usize {
        self.sizes.iter().copied().max().unwrap_or(1)
    }

    fn limit(&self, random: &mut Random) -> u32 {
        let steps = self.sizes.len() as u32;
        let any = random.below(steps as usize + 2) as u32;
        let large = if self.ends { random.pick(&[steps + 1, 1_000_000, u32::MAX]) } else { steps };
        random.weighted(&[(8, 0), (8, 1), (40, any), (44, large)])
    }

    /// How many steps a run in a capacity makes, as far as the reduction was followed, and whether it ends there.
    pub fn steps_in(&self, capacity: usize) -> (u32, bool) {
        match self.sizes.iter().skip(1).position(|&size| size > capacity) {
            Some(steps) => (steps as u32, true),
            None => (self.sizes.len() as u32 - 1, self.ends),
        }
    }

    /// A capacity that serves the first term, but not the largest where that is another.
    pub fn too_small(&self, random: &mut Random) -> usize {
        self.sizes[0] + random.below((self.largest() - self.sizes[0]).max(1))
    }

    pub fn capacity(&self, random: &mut Random) -> usize {
        let (largest, first) = (self.largest(), self.sizes[0]);
        // One less than the largest term, where that is not the first: the run then ends as full.
        let full = if largest > first { largest - 1 } else { largest };
        let (any, more) = (first + random.below(largest - first + 1), largest + random.below(60));
        let over = MOST_WORDS - 4 + random.below(8);
        random.weighted(&[
            (34, largest),
            (20, full),
            (8, first),
            (4, first - 1),
            (2, 0),
            (12, any),
            (20, more),
            (1, over),
        ])
    }
}

/// A run of the file, and one that is lent at least as much.
pub fn plans(random: &mut Random, file: Vec<u8>) -> (Case, Case) {
    let followed = follow(&file);
    let (limit, capacity) = (followed.limit(random), followed.capacity(random));
    let (first, second) = lengths(random, capacity);
    let more = if followed.ends { random.pick(&[limit, limit.saturating_add(1), u32::MAX]) } else { limit };
    let larger = Case::new(file.clone(), more, first + random.below(30), second + random.below(30));
    (Case::new(file, limit, first, second), larger)
}

/// Two lengths of which the shorter is the capacity.
pub fn lengths(random: &mut Random, capacity: usize) -> (usize, usize) {
    let longer = capacity + 1 + random.below(20);
    random.weighted(&[(2, (capacity, capacity)), (1, (longer, capacity)), (1, (capacity, longer))])
}
