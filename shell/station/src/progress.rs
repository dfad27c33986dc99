//! The line on standard error while a command is waited for, in simulated time.

use std::io::{self, IsTerminal, Write};

use crate::words;

const SECOND: u64 = 1_000_000;

pub struct Progress {
    /// A terminal has one line that changes, every second; all else a line every ten.
    terminal: bool,
    /// How far the shown line goes.
    shown: u64,
}

impl Progress {
    pub fn new() -> Progress {
        Progress { terminal: io::stderr().is_terminal(), shown: 0 }
    }

    /// A command has been waited for so long; none where there is none.
    pub fn waiting(&mut self, command: Option<(u16, u64)>) {
        let Some((op, us)) = command else {
            return self.done();
        };
        let step = if self.terminal { SECOND } else { 10 * SECOND };
        if us < self.shown + step {
            return;
        }
        self.shown = us - us % step;
        let text = format!("{}: {} s of 60 s waited, in simulated time", words::command(op), us / SECOND);
        let (begin, end) = if self.terminal { ("\r", "\x1b[K") } else { ("", "\n") };
        // A line that cannot be shown is no reason to stop.
        let _ = write!(io::stderr(), "{begin}{text}{end}");
    }

    fn done(&mut self) {
        if self.shown != 0 && self.terminal {
            let _ = write!(io::stderr(), "\r\x1b[K");
        }
        self.shown = 0;
    }
}
