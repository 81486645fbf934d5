//! A progress line on a terminal, from the first second on.
use crate::output::isatty;
use std::io::{self, Write};
use std::time::{Duration, Instant};

const FIRST: Duration = Duration::from_secs(1);
const STEP: Duration = Duration::from_millis(250);
const MIB: u64 = 1 << 20;

pub struct Progress {
    terminal: bool,
    length: Option<u64>,
    next: Instant,
    width: usize,
}

impl Progress {
    /// `length` is the input's, where it is known.
    pub fn new(length: Option<u64>) -> Progress {
        Progress { terminal: unsafe { isatty(2) } == 1, length, next: Instant::now() + FIRST, width: 0 }
    }

    pub fn show(&mut self, done: u64) {
        let now = Instant::now();
        if !self.terminal || now < self.next {
            return;
        }
        self.next = now + STEP;
        let line = match self.length {
            Some(length) if length > 0 => {
                format!("labyrinth: {} of {} MiB, {} %", done / MIB, length / MIB, done.min(length) * 100 / length)
            }
            _ => format!("labyrinth: {} MiB", done / MIB),
        };
        let _ = write!(io::stderr(), "\r{line:<0$}", self.width);
        self.width = self.width.max(line.len());
    }

    /// Takes the line away.
    pub fn clear(&mut self) {
        if self.width > 0 {
            let _ = write!(io::stderr(), "\r{:1$}\r", "", self.width);
            self.width = 0;
        }
    }
}
