//! A line on standard error that says how far the work is.

use std::fmt::Display;
use std::io::{IsTerminal, stderr};

pub struct Progress {
    shown: bool,
    /// A terminal keeps one line that is written over; a log gets a line each.
    terminal: bool,
}

impl Progress {
    /// Shown if standard error is a terminal, or if asked for.
    pub fn new(asked: bool) -> Self {
        let terminal = stderr().is_terminal();
        Progress {
            shown: asked || terminal,
            terminal,
        }
    }

    pub fn show(&self, text: impl Display) {
        match (self.shown, self.terminal) {
            (true, true) => eprint!("\r\x1b[K{text}"),
            (true, false) => eprintln!("{text}"),
            (false, _) => {}
        }
    }

    /// Makes room for other lines on the terminal.
    pub fn clear(&self) {
        if self.shown && self.terminal {
            eprint!("\r\x1b[K");
        }
    }
}
