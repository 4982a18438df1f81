//! How far long work has come, on a terminal, from the second second on.

use std::io::{self, IsTerminal, Write};
use std::time::{Duration, Instant};

const SELDOM: Duration = Duration::from_secs(1);

pub struct Progress {
    last: Instant,
    shown: bool,
    terminal: bool,
}

impl Progress {
    pub fn begin() -> Progress {
        Progress {
            last: Instant::now(),
            shown: false,
            terminal: io::stderr().is_terminal(),
        }
    }

    pub fn tell(&mut self, ticks: u64) {
        if self.terminal && self.last.elapsed() >= SELDOM {
            self.last = Instant::now();
            self.shown = true;
            let _ = write!(io::stderr(), "\r{ticks} ticks");
        }
    }

    /// The line is taken away again.
    pub fn end(&mut self) {
        if self.shown {
            self.shown = false;
            let _ = write!(io::stderr(), "\r\x1b[K");
        }
    }
}

/// Also where the work is given up.
impl Drop for Progress {
    fn drop(&mut self) {
        self.end();
    }
}
