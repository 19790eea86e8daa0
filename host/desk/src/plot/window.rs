//! The part of a log that is drawn.

use super::clock::Clock;
use super::WHOLE;
use crate::input::Log;
use crate::lists::{Ask, Lists, Moment};
use crate::replay::{lists_of, Part};
use crate::words::grouped;
use std::error::Error;
use std::fmt;

/// Why nothing of the log lies in the part that was asked for.
#[derive(Debug)]
pub enum NothingThere {
    /// Nothing has begun, and why.
    NotAccepted(String),
    /// What was asked for, and where the log begins or ends.
    Before(String, String),
    After(String, String),
    Backwards(String, String),
}

impl fmt::Display for NothingThere {
    fn fmt(&self, f: &mut fmt::Formatter<'_>) -> fmt::Result {
        match self {
            NothingThere::NotAccepted(why) => write!(f, "there is nothing to draw: {why}"),
            NothingThere::Before(to, begin) => write!(
                f,
                "--to {to}: the log begins at {begin}; expected a later --to"
            ),
            NothingThere::After(from, end) => write!(
                f,
                "--from {from}: the log ends at {end}; expected an earlier --from"
            ),
            NothingThere::Backwards(from, to) => write!(
                f,
                "--from {from} is after --to {to}; expected an earlier --from"
            ),
        }
    }
}

impl Error for NothingThere {}

/// A moment, and its place on the axis.
#[derive(Clone, Copy)]
pub struct Place {
    pub moment: Moment,
    pub at: u64,
}

/// The moments between which a log is drawn; none is its end.
#[derive(Clone, Copy, Default)]
pub struct Window {
    pub from: Option<Place>,
    pub to: Option<Place>,
}

impl Window {
    /// What was asked for. Only a part needs to know the lists beforehand.
    pub fn of(log: &Log, part: Part) -> Result<Window, Box<dyn Error>> {
        if part == WHOLE {
            return Ok(Window::default());
        }
        let lists = lists_of(log)?;
        let Some(first) = lists.get(1) else {
            return Err(NothingThere::NotAccepted(lists.not_begun()).into());
        };
        let early = |ask: &Ask| lists.is_early(*ask);
        if let Some(to) = part.1.filter(early) {
            return Err(NothingThere::Before(to.to_string(), first.begin.to_string()).into());
        }
        // Before the first begin there is nothing that could be left out.
        let from = part.0.filter(|ask| !early(ask));
        let window = Window {
            from: find(&lists, "--from", from)?,
            to: find(&lists, "--to", part.1)?,
        };
        window.checked(lists.count())
    }

    fn checked(self, lists: u32) -> Result<Window, Box<dyn Error>> {
        match (self.from, self.to) {
            (Some(from), Some(to)) if from.moment > to.moment => {
                let [from, to] = [from, to].map(|place| place.moment.shown(lists));
                Err(NothingThere::Backwards(from, to).into())
            }
            _ => Ok(self),
        }
    }

    pub fn has(&self, moment: Moment) -> bool {
        !self.is_before(moment) && self.to.is_none_or(|to| moment <= to.moment)
    }

    /// Does the part start later?
    pub fn is_before(&self, moment: Moment) -> bool {
        self.from.is_some_and(|from| moment < from.moment)
    }

    /// Does any of the time between these places lie in it?
    pub fn overlaps(&self, from: u64, to: u64) -> bool {
        self.from.is_none_or(|start| start.at < to) && self.to.is_none_or(|end| from < end.at)
    }
}

fn find(lists: &Lists, option: &str, ask: Option<Ask>) -> Result<Option<Place>, Box<dyn Error>> {
    let Some(ask) = ask else {
        return Ok(None);
    };
    let asked = lists.find_named(option, ask)?;
    let clock = Clock::of(lists);
    let at = clock.at(asked);
    // After the end of its list it is that end.
    let time = clock.own(asked.list, at);
    let moment = Moment { time, ..asked };
    Ok(Some(Place { moment, at }))
}

/// The times of a picture as its heading has them.
pub fn times(first: Moment, last: Moment, lists: u32) -> String {
    match lists {
        0 | 1 => format!("{} to {} ms", grouped(first.time), grouped(last.time)),
        _ => format!("{} to {}", first.shown(lists), last.shown(lists)),
    }
}
