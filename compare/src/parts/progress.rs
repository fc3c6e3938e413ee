//! A bar on standard error, if that is a terminal.

use std::io::{IsTerminal, Write};
use std::time::{Duration, Instant};

const WIDTH: usize = 40;
/// Time between two drawings.
const PAUSE: Duration = Duration::from_millis(100);

pub struct Progress {
    terminal: bool,
    files: usize,
    done: usize,
    differing: usize,
    drawn: Option<Instant>,
}

impl Progress {
    pub fn new(files: usize) -> Self {
        Self {
            terminal: std::io::stderr().is_terminal(),
            files,
            done: 0,
            differing: 0,
            drawn: None,
        }
    }

    /// One more file is done.
    pub fn step(&mut self, differs: bool) {
        self.done += 1;
        self.differing += usize::from(differs);
        let due = self.drawn.is_none_or(|drawn| drawn.elapsed() >= PAUSE);
        if self.terminal && (due || self.done == self.files) {
            self.drawn = Some(Instant::now());
            let _ = write!(std::io::stderr(), "\r{}", self.bar());
        }
    }

    pub fn bar(&self) -> String {
        let full = (self.done * WIDTH).checked_div(self.files).unwrap_or(WIDTH);
        format!(
            "[{}{}] {} of {}, {} differ",
            "#".repeat(full),
            ".".repeat(WIDTH - full),
            self.done,
            self.files,
            self.differing
        )
    }

    pub fn end(self) {
        if self.terminal {
            let _ = writeln!(std::io::stderr());
        }
    }
}
