//! A small generator of random numbers (splitmix64), so that a seed and an index always give the same file.

use std::vec::IntoIter;

pub struct Random {
    state: u64,
    /// What is drawn first.
    choices: IntoIter<u8>,
}

/// A byte eight times over, divided by that byte. No number below 257 has a factor in common with it, so that a byte drawn for one
/// of up to 256 choices can be any of them.
const EIGHT_TIMES: u64 = 0x0101_0101_0101_0101;

impl Random {
    /// A stream of its own for each seed and index.
    pub fn new(seed: u64, index: u64) -> Random {
        let mut mixed = Random::from_state(seed);
        let start = mixed.draw().wrapping_add(index);
        Random::from_state(Random::from_state(start).draw())
    }

    /// A stream whose first draws are the given bytes, one for each; behind them it is that of seed 0 and index 0.
    pub fn of_choices(choices: &[u8]) -> Random {
        Random { choices: choices.to_vec().into_iter(), ..Random::new(0, 0) }
    }

    fn from_state(state: u64) -> Random {
        Random { state, choices: Vec::new().into_iter() }
    }

    pub fn draw(&mut self) -> u64 {
        if let Some(choice) = self.choices.next() {
            return u64::from(choice) * EIGHT_TIMES;
        }
        self.state = self.state.wrapping_add(0x9e37_79b9_7f4a_7c15);
        let mut z = self.state;
        z = (z ^ (z >> 30)).wrapping_mul(0xbf58_476d_1ce4_e5b9);
        z = (z ^ (z >> 27)).wrapping_mul(0x94d0_49bb_1331_11eb);
        z ^ (z >> 31)
    }

    pub fn word(&mut self) -> u32 {
        (self.draw() >> 32) as u32
    }

    /// A number from 0 to `count` - 1; `count` is at least 1.
    pub fn below(&mut self, count: usize) -> usize {
        (self.draw() % count as u64) as usize
    }

    pub fn chance(&mut self, percent: usize) -> bool {
        self.below(100) < percent
    }

    pub fn pick<T: Copy>(&mut self, from: &[T]) -> T {
        from[self.below(from.len())]
    }

    /// One of the choices, each as likely as its weight; the weights' sum is at least 1.
    pub fn weighted<T: Copy>(&mut self, choices: &[(usize, T)]) -> T {
        let total: usize = choices.iter().map(|choice| choice.0).sum();
        let mut left = self.below(total);
        for (weight, choice) in choices {
            if left < *weight {
                return *choice;
            }
            left -= weight;
        }
        unreachable!("the weights sum to the total")
    }
}
