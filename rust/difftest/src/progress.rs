//! How far a run is, on stderr: a line that changes on a terminal, else a new line now and then.
use std::io::{stderr, IsTerminal, Write};
use std::time::{Duration, Instant};

pub struct Progress {
    all: u64,
    start: Instant,
    told: Instant,
    terminal: bool,
    shown: bool,
}

impl Progress {
    pub fn new(all: u64) -> Progress {
        let start = Instant::now();
        Progress {
            all,
            start,
            told: start,
            terminal: stderr().is_terminal(),
            shown: false,
        }
    }

    /// Says how many cases are done, where it is time to.
    pub fn at(&mut self, done: u64) {
        let pause = Duration::from_secs(if self.terminal { 1 } else { 30 });
        if done % 100 != 0 || self.told.elapsed() < pause {
            return;
        }
        self.told = Instant::now();
        self.shown = true;
        let (seconds, all) = (self.start.elapsed().as_secs(), self.all);
        let (before, after) = if self.terminal {
            ("\r", "")
        } else {
            ("", "\n")
        };
        // a run whose stderr is closed goes on
        let _ = write!(
            stderr(),
            "{before}difftest: {done} of {all} cases, {seconds} s{after}"
        );
    }

    pub fn end(&self) {
        if self.terminal && self.shown {
            let _ = writeln!(stderr());
        }
    }
}
