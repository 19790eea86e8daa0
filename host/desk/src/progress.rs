//! How far a long replay is, on standard error if that is a terminal.

use crate::words::grouped;
use std::io::{self, IsTerminal, Write};
use std::time::{Duration, Instant};

/// A log with fewer calls is done at once.
const LONG: u64 = 100_000;
/// The clock is looked at once in so many calls.
const LOOK: u64 = 1_024;
const APART: Duration = Duration::from_millis(200);

pub struct Progress {
    calls: u64,
    done: u64,
    /// When a line of it was last written; none is written without.
    last_written: Option<Instant>,
    /// A line of it stands on the terminal.
    shown: bool,
    /// Standard output is a terminal too.
    shared: bool,
}

impl Progress {
    /// Of a replay that shows all lines or some. Where all of them go to the terminal, they are progress enough.
    pub fn of(calls: u64, all: bool) -> Progress {
        let shared = io::stdout().is_terminal();
        let wanted = calls >= LONG && io::stderr().is_terminal() && !(shared && all);
        Progress {
            calls,
            done: 0,
            last_written: wanted.then(Instant::now),
            shown: false,
            shared: shared && wanted,
        }
    }

    /// For a short log.
    pub fn none() -> Progress {
        Progress::of(0, true)
    }

    /// A line was written: on a shared terminal it has to stand there whole before the next word of progress.
    pub fn written(&self, out: &mut impl Write) -> io::Result<()> {
        match self.shared {
            true => out.flush(),
            false => Ok(()),
        }
    }

    /// One call is done.
    pub fn step(&mut self) {
        self.done += 1;
        let Some(last) = self.last_written else {
            return;
        };
        if self.done.is_multiple_of(LOOK) && last.elapsed() >= APART {
            let (done, calls) = (grouped(self.done), grouped(self.calls));
            let percent = self.done * 100 / self.calls;
            // Nothing is lost if it can't be written.
            let _ = write!(
                io::stderr(),
                "\rreplayed {done} of {calls} calls ({percent} %)\x1b[K"
            );
            self.last_written = Some(Instant::now());
            self.shown = true;
        }
    }

    /// Takes its line away, so that another can be written there.
    pub fn clear(&mut self) {
        if self.shown {
            let _ = write!(io::stderr(), "\r\x1b[K");
            self.shown = false;
        }
    }
}

impl Drop for Progress {
    /// Also a replay that breaks off leaves no line of it behind.
    fn drop(&mut self) {
        self.clear();
    }
}
