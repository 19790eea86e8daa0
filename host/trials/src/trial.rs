//! A list of calls as it grows, and the report of a difference.

use crate::pair::{Difference, Pair};
use crate::shrink::shrink;
use crate::tally::Tally;
use chuldariin::raw;
use chuldariin::raw::Controller;
use chuldariin_log::text::print;
use chuldariin_log::Call;
use chuldariin_model::State;

/// Both sides agreed, or where they did not.
pub type Played = Result<(), Box<Difference>>;

/// A list of calls, run on both sides as it grows.
pub struct Trial {
    start: raw::Controller,
    pair: Pair,
    calls: Vec<Call>,
    pub tally: Tally,
}

impl Trial {
    /// Starts from a controller of any content.
    pub fn from(start: raw::Controller) -> Trial {
        Trial {
            start,
            pair: Pair::of(start),
            calls: Vec::new(),
            tally: Tally::default(),
        }
    }

    /// The calls so far.
    pub fn calls(&self) -> &[Call] {
        &self.calls
    }

    /// The state after the calls so far.
    pub fn state(&self) -> State {
        self.pair.state
    }

    /// The archive's controller after the calls so far.
    pub fn lent(&self) -> raw::Controller {
        self.pair.lent
    }

    /// Adds a call and runs it.
    pub fn run(&mut self, call: Call) -> Played {
        self.calls.push(call);
        let call = &self.calls[self.calls.len() - 1];
        let seen = self.pair.step(call)?;
        self.tally.see(&seen);
        Ok(())
    }

    /// What to print after a difference: the list, shrunk, and both sides at
    /// its last call. All of it can be replayed, if it started from zeros.
    pub fn report(&self, name: &str) -> String {
        let run = self.calls.len();
        let calls = shrink(self.calls.clone(), |calls| {
            first_difference(self.start, calls).map(|(place, _)| place)
        });
        let mut text = format!("# {name}: {} calls, shrunk from {run}\n", calls.len());
        if self.start != Controller::ZEROED {
            text.push_str(&format!("# lent at first: {:?}\n", self.start));
        }
        text.push_str(&print(&calls));
        match first_difference(self.start, &calls) {
            Some((_, difference)) => text.push_str(&both_sides(&difference)),
            None => text.push_str("# and no difference when run again\n"),
        }
        text
    }
}

/// The first call on which the two sides part, and how.
pub fn first_difference(
    start: raw::Controller,
    calls: &[Call],
) -> Option<(usize, Box<Difference>)> {
    let mut pair = Pair::of(start);
    for (place, call) in calls.iter().enumerate() {
        if let Err(difference) = pair.step(call) {
            return Some((place, difference));
        }
    }
    None
}

/// What the two sides told and keep, as comments.
pub fn both_sides(d: &Difference) -> String {
    let what = d.what.join(", ");
    format!(
        "# differs: {what}\n# archive told:  {:?}\n# model told:    {:?}\n# archive keeps: {:?}\n# model keeps:   {:?}\n",
        d.archive_reply, d.model_reply, d.lent, d.state
    )
}
