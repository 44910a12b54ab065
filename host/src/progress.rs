//! The progress line of a long run, on standard error if that is a terminal.

use std::io::{IsTerminal, Write};
use std::time::{Duration, Instant};

const PAUSE: Duration = Duration::from_millis(100);

/// Units and their bytes.
#[derive(Clone, Copy, Default)]
struct Totals {
    units: u64,
    bytes: u64,
}

impl Totals {
    fn and(self, length: u64) -> Totals {
        Totals {
            units: self.units + 1,
            bytes: self.bytes + length,
        }
    }
}

/// How far a run has come.
pub struct Progress {
    all: Totals,
    written: Totals,
    terminal: bool,
    shown: Option<Instant>,
}

impl Progress {
    /// For a run that has units of these lengths to write.
    pub fn new(lengths: &[u64]) -> Progress {
        let add = |all: Totals, &length: &u64| all.and(length);
        let mut progress = Progress {
            all: lengths.iter().fold(Totals::default(), add),
            written: Totals::default(),
            terminal: std::io::stderr().is_terminal(),
            shown: None,
        };
        progress.show();
        progress
    }

    /// A unit of this length is written.
    pub fn add(&mut self, length: u64) {
        self.written = self.written.and(length);
        self.show();
    }

    /// Shows the line anew, unless it was shown just now.
    fn show(&mut self) {
        if !self.terminal || self.shown.is_some_and(|at| at.elapsed() < PAUSE) {
            return;
        }
        self.shown = Some(Instant::now());
        let (done, all) = (self.written, self.all);
        put(&format!(
            "units {} of {}, bytes {} of {}",
            done.units, all.units, done.bytes, all.bytes
        ));
    }
}

impl Drop for Progress {
    /// Leaves an empty line to whatever is printed next.
    fn drop(&mut self) {
        if self.shown.is_some() {
            put("");
        }
    }
}

/// Puts a text in place of the terminal's line.
fn put(line: &str) {
    let mut terminal = std::io::stderr();
    // A run does not fail because its progress cannot be shown.
    let _ = write!(terminal, "\r\x1b[K{line}").and_then(|()| terminal.flush());
}
