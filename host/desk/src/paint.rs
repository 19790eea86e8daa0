//! Colours, on a terminal only.

use std::io::IsTerminal;

#[derive(Clone, Copy)]
pub enum Colour {
    Red = 31,
    Green = 32,
    Yellow = 33,
}

/// Whether to colour.
#[derive(Clone, Copy)]
pub struct Paint(bool);

impl Paint {
    /// Colours where standard output is a terminal that has them, unless NO_COLOR is set.
    pub fn for_stdout() -> Paint {
        let wanted = std::env::var_os("NO_COLOR").is_none_or(|value| value.is_empty());
        let able = std::env::var_os("TERM").is_some_and(|term| term != "dumb");
        Paint(wanted && able && std::io::stdout().is_terminal())
    }

    /// Colours wherever it goes.
    pub fn always() -> Paint {
        Paint(true)
    }

    pub fn none() -> Paint {
        Paint(false)
    }

    pub fn colour(self, colour: Colour, text: &str) -> String {
        self.with(&format!("{}", colour as u8), text)
    }

    pub fn bold(self, text: &str) -> String {
        self.with("1", text)
    }

    pub fn dim(self, text: &str) -> String {
        self.with("2", text)
    }

    fn with(self, code: &str, text: &str) -> String {
        match self.0 && !text.trim().is_empty() {
            true => format!("\x1b[{code}m{text}\x1b[0m"),
            false => text.to_string(),
        }
    }
}
