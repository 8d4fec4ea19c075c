//! Progress of long work, on a terminal.

use std::io::{self, IsTerminal, Stderr, Write};
use std::time::{Duration, Instant};

/// Work up to this long shows nothing.
const QUIET: Duration = Duration::from_secs(1);
const INTERVAL: Duration = Duration::from_millis(200);

pub struct Progress<W: Write> {
    /// None if nobody watches.
    out: Option<W>,
    what: &'static str,
    total: usize,
    started: Instant,
    /// When the next line is due.
    due: Duration,
}

impl Progress<Stderr> {
    /// Progress through `total` pieces of work, on standard error if that is a terminal.
    pub fn new(what: &'static str, total: usize) -> Progress<Stderr> {
        Progress::on(Some(io::stderr()).filter(|stderr| stderr.is_terminal()), what, total)
    }
}

impl<W: Write> Progress<W> {
    fn on(out: Option<W>, what: &'static str, total: usize) -> Progress<W> {
        Progress { out, what, total, started: Instant::now(), due: QUIET }
    }

    /// So many pieces are done.
    pub fn at(&mut self, done: usize) {
        self.show(done, self.started.elapsed());
    }

    fn show(&mut self, done: usize, elapsed: Duration) {
        let Some(out) = &mut self.out else {
            return;
        };
        if elapsed >= self.due {
            // If it cannot be shown there is nobody to tell.
            let _ = write!(out, "\r{done} of {} {}", self.total, self.what);
            let _ = out.flush();
            self.due = elapsed + INTERVAL;
        }
    }
}

/// The line is taken away again.
impl<W: Write> Drop for Progress<W> {
    fn drop(&mut self) {
        let Some(out) = self.out.as_mut().filter(|_| self.due > QUIET) else {
            return;
        };
        let width = format!("{0} of {0} {1}", self.total, self.what).len();
        let _ = write!(out, "\r{:width$}\r", "");
        let _ = out.flush();
    }
}

#[cfg(test)]
mod tests {
    use super::*;

    fn shown(millis: &[u64]) -> String {
        let mut out = Vec::new();
        let mut progress = Progress::on(Some(&mut out), "tune-ins", 10);
        for (done, &millis) in millis.iter().enumerate() {
            progress.show(done, Duration::from_millis(millis));
        }
        drop(progress);
        String::from_utf8(out).unwrap()
    }

    #[test]
    fn short_work_shows_nothing() {
        assert_eq!(shown(&[0, 500, 999]), "");
    }

    #[test]
    fn long_work_shows_progress_and_takes_it_away() {
        let blank = " ".repeat("10 of 10 tune-ins".len());
        assert_eq!(
            shown(&[0, 999, 1_000, 1_100, 1_200, 1_399]),
            format!("\r2 of 10 tune-ins\r4 of 10 tune-ins\r{blank}\r")
        );
    }

    #[test]
    fn nobody_watches() {
        let mut progress = Progress::on(None::<Vec<u8>>, "tune-ins", 10);
        progress.show(5, Duration::from_secs(9));
        assert!(progress.out.is_none());
    }
}
