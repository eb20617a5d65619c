//! A line of progress on standard error, from time to time, where the work takes more than a few seconds.

use std::time::{Duration, Instant};

const EVERY: Duration = Duration::from_secs(4);

pub struct Progress {
    started: Instant,
    shown: Instant,
    what: &'static str,
    total: u64,
}

impl Progress {
    pub fn new(what: &'static str, total: u64) -> Progress {
        let now = Instant::now();
        Progress { started: now, shown: now, what, total }
    }

    /// Says how much is done, unless it was said a moment ago.
    pub fn done(&mut self, count: u64) {
        if self.shown.elapsed() >= EVERY {
            self.shown = Instant::now();
            eprintln!("{}: {count} of {}, {} s", self.what, self.total, self.started.elapsed().as_secs());
        }
    }
}
