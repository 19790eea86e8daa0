//! What a post recorded beside its calls. Nothing of it goes to a controller.

use crate::wall::Wall;
use std::fmt;

/// A line that is no call.
#[derive(Clone, Debug, PartialEq, Eq)]
pub enum Record {
    /// The reply to the call before it, as the post's own log has it.
    Told(Told),
    /// The auxiliary contact at a time: closed, or open.
    Contact(u64, bool),
    /// What the panel showed from a time on.
    Panel(u64, String),
    /// The post's clock and the wall's, at one moment.
    Clock(u64, Wall),
    /// The contact follows its command within so many ms.
    Travel(u64),
}

/// What a post says that it was told. What it did not keep is none.
#[derive(Clone, Copy, Debug, Default, PartialEq, Eq)]
pub struct Told {
    /// Letter and digit; U, E and F have the digit 0.
    pub state: Option<(u8, u8)>,
    pub wave: Option<u32>,
    pub closed: Option<bool>,
    pub fault: Option<u8>,
    pub closings: Option<u32>,
    /// The current on each line, mA.
    pub lines: [Option<u32>; 3],
}

impl Record {
    /// The time that it names.
    pub fn time(&self) -> Option<u64> {
        match self {
            Record::Contact(time, _) | Record::Panel(time, _) | Record::Clock(time, _) => {
                Some(*time)
            }
            Record::Told(_) | Record::Travel(_) => None,
        }
    }

    /// The word that its line starts with.
    pub fn word(&self) -> &'static str {
        match self {
            Record::Told(_) => "told",
            Record::Contact(..) => "contact",
            Record::Panel(..) => "panel",
            Record::Clock(..) => "clock",
            Record::Travel(_) => "travel",
        }
    }
}

/// A contactor or a contact in a word.
pub fn contact_word(closed: bool) -> &'static str {
    match closed {
        true => "closed",
        false => "open",
    }
}

/// Letter and digit: C2, U.
pub fn state_word(letter: u8, digit: u8) -> String {
    match digit {
        0 => char::from(letter).to_string(),
        _ => format!("{}{digit}", char::from(letter)),
    }
}

impl fmt::Display for Record {
    fn fmt(&self, f: &mut fmt::Formatter<'_>) -> fmt::Result {
        let word = self.word();
        match self {
            Record::Told(told) => write!(f, "{word} {told}"),
            Record::Contact(time, closed) => write!(f, "{word} {time} {}", contact_word(*closed)),
            Record::Panel(time, text) => write!(f, "{word} {time} {text}"),
            Record::Clock(time, wall) => write!(f, "{word} {time} {wall}"),
            Record::Travel(millis) => write!(f, "{word} {millis}"),
        }
    }
}

impl fmt::Display for Told {
    fn fmt(&self, f: &mut fmt::Formatter<'_>) -> fmt::Result {
        let state = self.state.map(|(letter, digit)| state_word(letter, digit));
        let closed = self.closed.map(contact_word);
        write!(
            f,
            "{} {} {} {} {}",
            kept(state),
            kept(self.wave),
            kept(closed),
            kept(self.fault),
            kept(self.closings)
        )?;
        match self.lines {
            [None, None, None] => Ok(()),
            [one, two, three] => write!(f, " {} {} {}", kept(one), kept(two), kept(three)),
        }
    }
}

fn kept<T: fmt::Display>(value: Option<T>) -> String {
    value.map_or("-".to_string(), |value| value.to_string())
}
