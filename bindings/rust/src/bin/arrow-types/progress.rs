//! How far a long run has got, said on standard error at a terminal, and nowhere else.

use std::io::{self, IsTerminal, Write};
use std::time::{Duration, Instant};

/// How long a run is before anything is said, and from then on between two times.
const PAUSE: Duration = Duration::from_millis(500);

/// How many bytes are read before the clock is looked at again.
const STEP: u64 = 65_536;

const MEGABYTE: u64 = 1_000_000;

/// What is said stands in one line, which goes when this is dropped.
pub struct Progress {
    /// How many bytes there are, where that is known.
    all: Option<u64>,
    /// How many bytes are to be read before the clock is looked at.
    next: u64,
    said: Instant,
    /// How long what stands there is.
    shown: usize,
}

impl Progress {
    /// That of a run over so many bytes, if that is known.
    pub fn of(all: Option<u64>) -> Progress {
        let mut progress = Progress::none();
        if io::stderr().is_terminal() {
            progress.all = all;
            progress.next = STEP;
        }
        progress
    }

    /// Nothing is said.
    pub fn none() -> Progress {
        Progress {
            all: None,
            next: u64::MAX,
            said: Instant::now(),
            shown: 0,
        }
    }

    /// So many bytes are read by now.
    pub fn at(&mut self, bytes: u64) {
        if bytes < self.next {
            return;
        }
        self.next = bytes + STEP;
        if self.said.elapsed() >= PAUSE {
            self.said = Instant::now();
            self.show(&said(bytes, self.all));
        }
    }

    /// Writes over what stands there. Where that can't be written, nothing is said.
    fn show(&mut self, text: &str) {
        let _ = write!(io::stderr(), "\r{text:width$}", width = self.shown);
        self.shown = text.len();
    }
}

impl Drop for Progress {
    fn drop(&mut self) {
        if self.shown > 0 {
            self.show("");
            let _ = write!(io::stderr(), "\r");
        }
    }
}

fn said(bytes: u64, all: Option<u64>) -> String {
    let done = bytes / MEGABYTE;
    match all {
        Some(all) => format!("arrow-types: {done} of {} MB", all.div_ceil(MEGABYTE)),
        None => format!("arrow-types: {done} MB"),
    }
}
