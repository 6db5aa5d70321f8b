//! How far a long run has come, shown on standard error when it goes on for longer than a second.

use crate::output::complain;
use crate::text::many;
use std::io::{stderr, IsTerminal, Write};
use std::time::{Duration, Instant};

/// After how long it is shown for the first time.
const FIRST: Duration = Duration::from_secs(1);

/// The lines that were dealt with, and when that was told last.
pub struct Progress {
    from: Instant,
    next: Duration,
    terminal: bool,
    shown: bool,
}

impl Progress {
    /// A run that begins now; whoever types the lines knows how far he has come.
    pub fn begin(typed: bool) -> Progress {
        let next = if typed { Duration::MAX } else { FIRST };
        Progress { from: Instant::now(), next, terminal: stderr().is_terminal(), shown: false }
    }

    /// Tells of it if it is time: every second in one line of a terminal, ever more seldom in a file.
    pub fn at(&mut self, lines: u64) {
        let gone = self.from.elapsed();
        if gone < self.next {
            return;
        }
        self.next = if self.terminal { gone + FIRST } else { 2 * gone };
        self.shown = true;
        let end = if self.terminal { "\r" } else { "\n" };
        complain(format_args!("{} in {} s{end}", many(lines as usize, "line"), gone.as_secs()));
    }

    /// Takes the line off the terminal, where answers are to come.
    pub fn hide(&mut self) {
        if self.shown && self.terminal {
            let _ = write!(stderr(), "\x1b[K");
        }
        self.shown = false;
    }
}
