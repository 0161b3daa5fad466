//! How far a long input is, on standard error: only where a person looks at it, and not at the answers themselves.

use std::fmt::Display;
use std::io::{self, IsTerminal, Stderr, Write};
use std::time::{Duration, Instant};

const EVERY: Duration = Duration::from_secs(1);
/// The clock is looked at once in so many.
const OFTEN: u64 = 256;

/// The count is taken away where this ends, also by a failure: what is told of that has a line of its own.
pub struct Progress<W: Write = Stderr> {
    /// What is counted.
    what: &'static str,
    /// Standard error, but in a test.
    to: W,
    wanted: bool,
    every: Duration,
    next: Instant,
    shown: bool,
}

impl Progress {
    pub fn new(what: &'static str) -> Self {
        let wanted = io::stderr().is_terminal() && !io::stdout().is_terminal();
        Self::with(what, io::stderr(), wanted, EVERY)
    }
}

impl<W: Write> Progress<W> {
    fn with(what: &'static str, to: W, wanted: bool, every: Duration) -> Self {
        Self { what, to, wanted, every, next: Instant::now() + every, shown: false }
    }

    /// Shows every count at which the clock is looked at, whatever that says.
    #[cfg(test)]
    pub fn of_test(what: &'static str, to: W) -> Self {
        Self::with(what, to, true, Duration::ZERO)
    }

    /// So many are done.
    pub fn at(&mut self, done: u64) {
        if self.wanted && done.is_multiple_of(OFTEN) && Instant::now() >= self.next {
            let _ = write!(self.to, "\r{done} {}", self.what);
            self.next += self.every;
            self.shown = true;
        }
    }

    /// A message, on a line of its own.
    pub fn say(&mut self, what: &dyn Display) {
        self.clear();
        super::say_to(&mut self.to, what);
    }

    /// Takes the count away.
    fn clear(&mut self) {
        if self.shown {
            let _ = write!(self.to, "\r\x1b[K");
            self.shown = false;
        }
    }
}

impl<W: Write> Drop for Progress<W> {
    fn drop(&mut self) {
        self.clear();
    }
}
