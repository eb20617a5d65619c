//! Works timed side by side.

use std::time::{Duration, Instant};

/// Rounds in which every work is timed once.
const ROUNDS: usize = 31;

/// The least time that a round gives to each.
const ROUND: Duration = Duration::from_millis(12);

/// Something to do again and again.
pub type Work<'a> = Box<dyn FnMut() + 'a>;

/// The seconds of each work, the least of all rounds.
pub fn side_by_side(works: &mut [Work<'_>]) -> Vec<f64> {
    let counts: Vec<u32> = works.iter_mut().map(|work| enough(work)).collect();
    let mut least = vec![f64::INFINITY; works.len()];
    for _ in 0..ROUNDS {
        for (at, work) in works.iter_mut().enumerate() {
            least[at] = least[at].min(once(work, counts[at]));
        }
    }
    least
}

/// Seconds of one of so many repetitions.
fn once(work: &mut dyn FnMut(), count: u32) -> f64 {
    let started = Instant::now();
    for _ in 0..count {
        work();
    }
    started.elapsed().as_secs_f64() / f64::from(count)
}

/// Repetitions that fill a round.
fn enough(work: &mut dyn FnMut()) -> u32 {
    let mut count = 1;
    loop {
        let started = Instant::now();
        (0..count).for_each(|_| work());
        if started.elapsed() >= ROUND || count >= 1 << 20 {
            return count;
        }
        count *= 2;
    }
}
