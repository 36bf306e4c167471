//! How far a run has come, on standard error: one line that is written over on a terminal, else a line now and then.

use crate::rounds::Length;
use std::io::{IsTerminal, Write, stderr};
use std::time::{Duration, Instant};

pub struct Progress {
    start: Instant,
    length: Length,
    terminal: bool,
    next: Duration,
}

impl Progress {
    pub fn new(start: Instant, length: Length) -> Self {
        let terminal = stderr().is_terminal();
        let mut progress = Self {
            start,
            length,
            terminal,
            next: Duration::ZERO,
        };
        progress.next = progress.pause();
        progress
    }

    fn pause(&self) -> Duration {
        if self.terminal {
            Duration::from_millis(250)
        } else {
            Duration::from_secs(30)
        }
    }

    /// After a round, with how many there were; says something if it is time.
    pub fn tell(&mut self, rounds: u64, failed: impl FnOnce() -> u64) {
        let now = self.start.elapsed();
        if now < self.next {
            return;
        }
        self.next = now + self.pause();
        let of = match self.length {
            Length::Time(time) => format!("{} of {} s", now.as_secs(), time.as_secs()),
            Length::Rounds(count) => format!("of {count}, {} s", now.as_secs()),
            Length::Alone(_) => return,
        };
        let line = format!("{rounds} rounds, {of}, {} failed", failed());
        let mut out = stderr().lock();
        // Progress that can't be written is no reason to stop.
        let _ = if self.terminal {
            write!(out, "\r\x1b[K{line}").and_then(|()| out.flush())
        } else {
            writeln!(out, "{line}")
        };
    }

    /// Wipes the line.
    pub fn end(&self) {
        if self.terminal {
            let _ = write!(stderr().lock(), "\r\x1b[K");
        }
    }
}
