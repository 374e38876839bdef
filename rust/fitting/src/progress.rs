//! Tells how far a long command is. It prints a line on standard error after a second, and another
//! line whenever the time has doubled.

use std::io::Write;
use std::time::{Duration, Instant};

/// The first line comes after this time.
const FIRST: Duration = Duration::from_secs(1);

/// The writer of these lines.
pub struct Progress<'a> {
    err: &'a mut dyn Write,
    begin: Instant,
    next: Duration,
}

impl<'a> Progress<'a> {
    pub fn new(err: &'a mut dyn Write) -> Progress<'a> {
        Progress {
            err,
            begin: Instant::now(),
            next: FIRST,
        }
    }

    /// Prints how many of all are done, if it is time to do so.
    pub fn tell(&mut self, done: usize, all: usize, what: &str) {
        self.tell_at(self.begin.elapsed(), done, all, what);
    }

    fn tell_at(&mut self, elapsed: Duration, done: usize, all: usize, what: &str) {
        if elapsed >= self.next {
            self.next = 2 * elapsed;
            // If standard error is closed, nobody reads the line.
            let _ = writeln!(self.err, "fitting: {done} of {all} {what}");
        }
    }
}

#[cfg(test)]
mod tests {
    use super::*;

    #[test]
    fn a_line_comes_after_a_second_and_then_seldom() {
        let mut told = Vec::new();
        let mut progress = Progress::new(&mut told);
        for tenth in 0..70 {
            let elapsed = Duration::from_millis(100 * tenth);
            progress.tell_at(elapsed, tenth as usize, 70, "pairs compared");
        }
        let lines = "fitting: 10 of 70 pairs compared\n\
                     fitting: 20 of 70 pairs compared\n\
                     fitting: 40 of 70 pairs compared\n";
        assert_eq!(String::from_utf8(told).expect("text"), lines);
    }
}
