//! A line on standard error every few seconds.

use std::time::{Duration, Instant};

const INTERVAL: Duration = Duration::from_secs(5);

pub struct Progress {
    what: &'static str,
    total: usize,
    done: usize,
    told: Instant,
}

impl Progress {
    pub fn new(what: &'static str, total: usize) -> Progress {
        Progress { what, total, done: 0, told: Instant::now() }
    }

    pub fn step(&mut self) {
        self.done += 1;
        if self.done % 256 == 0 {
            self.tell();
        }
    }

    /// Tells how far it is, if the last time is long enough ago.
    pub fn tell(&mut self) {
        if self.told.elapsed() >= INTERVAL {
            eprintln!("{}: {} of {} calls", self.what, self.done, self.total);
            self.told = Instant::now();
        }
    }
}
