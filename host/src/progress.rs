//! Progress on standard error, where that is a terminal.

use std::io::{self, IsTerminal, Write, stderr};
use std::time::{Duration, Instant};

/// How often the line is written again.
const EVERY: Duration = Duration::from_millis(200);

/// Lines done, of how many where that is known, and lines a second: one line that is overwritten. Where no terminal shows it,
/// nothing is counted and no clock is read.
pub struct Progress {
    shown: Option<Figures>,
}

struct Figures {
    total: Option<u64>,
    begin: Instant,
    last: Instant,
    done: u64,
}

impl Progress {
    /// `total` is asked only where progress is shown.
    pub fn new(total: impl FnOnce() -> io::Result<Option<u64>>) -> io::Result<Progress> {
        if !stderr().is_terminal() {
            return Ok(Progress { shown: None });
        }
        let total = total()?;
        let now = Instant::now();
        Ok(Progress { shown: Some(Figures { total, begin: now, last: now, done: 0 }) })
    }

    /// One more line is done.
    pub fn step(&mut self) {
        if let Some(figures) = &mut self.shown {
            figures.step();
        }
    }

    /// Clears the line, so that a message can stand in its place.
    pub fn clear(&self) {
        if self.shown.is_some() {
            let _ = write!(stderr(), "\r\x1b[K");
        }
    }

    /// Writes the last figures, and ends the line.
    pub fn end(&self) {
        if let Some(figures) = &self.shown {
            figures.write("\n");
        }
    }
}

impl Figures {
    fn step(&mut self) {
        self.done += 1;
        if self.last.elapsed() >= EVERY {
            self.last = Instant::now();
            self.write("");
        }
    }

    fn write(&self, end: &str) {
        let line = text(self.done, self.total, self.begin.elapsed());
        // A terminal that is gone is no reason to stop judging.
        let _ = write!(stderr(), "\r\x1b[K{line}{end}");
    }
}

fn text(done: u64, total: Option<u64>, time: Duration) -> String {
    let rate = done as f64 / time.as_secs_f64().max(1e-9);
    match total {
        Some(total) => format!("{done} of {total} lines, {rate:.0} a second"),
        None => format!("{done} lines, {rate:.0} a second"),
    }
}

#[cfg(test)]
mod tests {
    use super::*;

    #[test]
    fn figures() {
        let time = Duration::from_secs(2);
        assert_eq!(text(10, Some(40), time), "10 of 40 lines, 5 a second");
        assert_eq!(text(11, None, time), "11 lines, 6 a second");
    }
}
