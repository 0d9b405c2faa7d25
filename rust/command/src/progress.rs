//! How far a long trace is, on standard error where that is a terminal.

use crate::trace::Far;
use std::io::{self, IsTerminal, Write};
use std::time::{Duration, Instant};

/// What is over before this has no progress line.
const FIRST: Duration = Duration::from_millis(500);
const EACH: Duration = Duration::from_millis(200);

pub struct Progress {
    shows: bool,
    far: Far,
    next: Instant,
    is_shown: bool,
}

impl Progress {
    /// Not with `--quiet`, and not between lines that go to the same terminal.
    pub fn new(far: Far, is_quiet: bool) -> Progress {
        let shows = !is_quiet && io::stderr().is_terminal() && !io::stdout().is_terminal();
        Progress { shows, far, next: Instant::now() + FIRST, is_shown: false }
    }

    /// After so many headers.
    pub fn tell(&mut self, headers: u64) {
        if self.shows && Instant::now() >= self.next {
            self.next = Instant::now() + EACH;
            self.is_shown = true;
            self.write(&told(headers, self.far.percent()));
        }
    }

    /// After the last; what is written next starts a line of its own.
    pub fn end(&mut self, headers: u64) {
        if self.is_shown {
            self.is_shown = false;
            self.write(&(told(headers, None) + "\n"));
        }
    }

    fn write(&self, text: &str) {
        // Where standard error cannot be written, nothing is missing.
        let _ = io::stderr().write_all(format!("\r{text}").as_bytes());
    }
}

/// As long as the longest, so that nothing of the one before is left.
fn told(headers: u64, percent: Option<u64>) -> String {
    let percent = percent.map_or(String::new(), |percent| format!(", {percent}%"));
    format!("{:<32}", format!("{headers} headers{percent}"))
}

impl Drop for Progress {
    /// Where something failed, its message starts a line of its own.
    fn drop(&mut self) {
        if self.is_shown {
            let _ = writeln!(io::stderr());
        }
    }
}
