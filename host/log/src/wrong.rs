//! What is wrong with a log, line by line, and what is expected.

use std::fmt;

/// A line that is no call.
#[derive(Clone, Debug, PartialEq, Eq)]
pub struct Wrong {
    /// The line's number, from 1.
    pub line: usize,
    pub what: String,
    pub expected: &'static str,
}

impl fmt::Display for Wrong {
    fn fmt(&self, f: &mut fmt::Formatter<'_>) -> fmt::Result {
        write!(
            f,
            "line {}: {}; expected {}",
            self.line, self.what, self.expected
        )
    }
}

/// So many wrong lines are kept.
const KEPT: usize = 10;

/// The wrong lines of a log: the first of them, and how many more there are.
#[derive(Clone, Debug, Default, PartialEq, Eq)]
pub struct WrongLines {
    pub first: Vec<Wrong>,
    pub more: usize,
}

impl WrongLines {
    pub fn of(wrong: Wrong) -> WrongLines {
        let first = vec![wrong];
        WrongLines { first, more: 0 }
    }

    /// Those of a later part.
    pub fn join(&mut self, later: WrongLines) {
        later.first.into_iter().for_each(|wrong| self.add(wrong));
        self.more += later.more;
    }

    pub fn add(&mut self, wrong: Wrong) {
        match self.first.len() < KEPT {
            true => self.first.push(wrong),
            false => self.more += 1,
        }
    }
}

impl fmt::Display for WrongLines {
    fn fmt(&self, f: &mut fmt::Formatter<'_>) -> fmt::Result {
        let lines: Vec<String> = self.first.iter().map(Wrong::to_string).collect();
        write!(f, "{}", lines.join("\n"))?;
        match self.more {
            0 => Ok(()),
            more => write!(f, "\nand {more} more wrong lines"),
        }
    }
}
