//! What a run is lent, and how it is made smaller.

use super::plan::follow;
use super::report::show_file;
use crate::shrink::shrink;

/// What a run is lent: its file, its limit, and the lengths of its two buffers.
#[derive(Clone)]
pub struct Case {
    pub file: Vec<u8>,
    pub limit: u32,
    pub first: usize,
    pub second: usize,
}

/// How many steps less a smaller file may need.
const STEPS_LESS: u32 = 4;

/// Steps that a run may take while it is shrunk.
const LONG: u32 = 2_000;

impl Case {
    pub fn new(file: Vec<u8>, limit: u32, first: usize, second: usize) -> Case {
        Case { file, limit, first, second }
    }

    /// Whether its run cannot take very long.
    pub fn is_short(&self) -> bool {
        self.limit <= LONG || follow(&self.file).ends
    }

    /// A smaller case for which the property still holds.
    pub fn shrunk(&self, holds: &mut dyn FnMut(&Case) -> bool) -> Case {
        let mut best = self.clone();
        for _ in 0..2 {
            best.shrink_numbers(holds);
            let mut numbers = best.clone();
            best.file = shrink(best.file, &mut |file| match numbers.near(file).into_iter().find(|case| holds(case)) {
                Some(found) => {
                    numbers = found;
                    true
                }
                None => false,
            });
            best = numbers;
        }
        best.shrink_numbers(holds);
        best
    }

    /// The same of a smaller file, which may need a few steps and some words less.
    fn near(&self, file: &[u8]) -> Vec<Case> {
        let fewer = self.file.len().saturating_sub(file.len()) / 4;
        let lengths =
            [(self.first, self.second), (self.first.saturating_sub(fewer), self.second.saturating_sub(fewer))];
        let limits = (self.limit.saturating_sub(STEPS_LESS)..=self.limit).rev();
        limits.flat_map(|limit| lengths.map(|(first, second)| Case::new(file.to_vec(), limit, first, second))).collect()
    }

    /// Makes limit and lengths smaller while the property holds.
    fn shrink_numbers(&mut self, holds: &mut dyn FnMut(&Case) -> bool) {
        while let Some(smaller) = self.smaller().into_iter().find(|case| holds(case)) {
            *self = smaller;
        }
    }

    fn smaller(&self) -> Vec<Case> {
        let limits = less(self.limit as usize).into_iter().map(|limit| Case { limit: limit as u32, ..self.clone() });
        let firsts = less(self.first).into_iter().map(|first| Case { first, ..self.clone() });
        let seconds = less(self.second).into_iter().map(|second| Case { second, ..self.clone() });
        let both = less(self.first.min(self.second)).into_iter().map(|n| Case { first: n, second: n, ..self.clone() });
        limits.chain(both).chain(firsts).chain(seconds).collect()
    }

    /// The case as it was lent.
    pub fn show(&self) -> String {
        let Case { file, limit, first, second } = self;
        format!("{}limit {limit}, buffers of {first} and {second} words\n", show_file(file))
    }
}

/// Smaller numbers to try.
pub fn less(number: usize) -> Vec<usize> {
    let mut found: Vec<usize> = (0..10).chain([16, 64, 256, 1_024]).collect();
    found.extend([number / 2, number - number / 4, number.saturating_sub(1)]);
    found.retain(|&smaller| smaller < number);
    found
}
