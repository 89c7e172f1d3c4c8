//! A bar on a terminal.

use std::io::{self, IsTerminal};
use std::time::{Duration, Instant};

/// Work that takes less time shows nothing.
const WAIT: Duration = Duration::from_millis(300);

/// Shows how much of some work is done, if standard error is a terminal. The line is cleared when this is dropped.
pub struct Progress {
    start: Instant,
    total: Option<u64>,
    shown: Option<u64>,
}

impl Progress {
    /// Of a total that may not be known.
    pub fn new(total: Option<u64>) -> Self {
        Progress { start: Instant::now(), total, shown: None }
    }

    /// Shows a bar of 40 signs and how many percent are done, or without a total how many KiB.
    pub fn show(&mut self, done: u64) {
        let part = self.total.map_or(done >> 10, |total| (100 * done.min(total)).checked_div(total).unwrap_or(100));
        if self.start.elapsed() < WAIT || self.shown == Some(part) || !io::stderr().is_terminal() {
            return;
        }
        self.shown = Some(part);
        match self.total {
            Some(_) => eprint!("\r[{:<40}] {part:3} %", "#".repeat(part as usize * 40 / 100)),
            None => eprint!("\r{part} KiB"),
        }
    }
}

impl Drop for Progress {
    fn drop(&mut self) {
        if self.shown.is_some() {
            eprint!("\r\x1b[K");
        }
    }
}
