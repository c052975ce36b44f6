//! What is being done, on standard error: twice a second in place on a terminal, else a line every 10 seconds.
use std::io::{IsTerminal as _, Write as _};
use std::time::{Duration, Instant};

pub struct Progress {
    start: Instant,
    shown: Instant,
    terminal: bool,
}

impl Progress {
    pub fn new() -> Self {
        let now = Instant::now();
        Self { start: now, shown: now, terminal: std::io::stderr().is_terminal() }
    }

    pub fn elapsed(&self) -> Duration {
        self.start.elapsed()
    }

    /// Shows the words where it is time to.
    pub fn tell(&mut self, words: impl FnOnce() -> String) {
        let pause = if self.terminal { Duration::from_millis(500) } else { Duration::from_secs(10) };
        if self.shown.elapsed() < pause {
            return;
        }
        self.shown = Instant::now();
        let seconds = self.elapsed().as_secs();
        if self.terminal {
            eprint!("\r\x1b[K{seconds} s, {}", words());
            let _ = std::io::stderr().flush();
        } else {
            eprintln!("compare: {seconds} s, {}", words());
        }
    }

    /// The line of a terminal is done with.
    pub fn end(&self) {
        if self.terminal {
            eprint!("\r\x1b[K");
        }
    }
}
