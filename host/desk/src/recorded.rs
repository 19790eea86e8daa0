//! What the post says that it was told, held against what the controller commands.

use crate::turn::Turn;
use crate::words::{fault, grouped, wave};
use chuldariin::raw;
use chuldariin_log::record::{contact_word, state_word};
use chuldariin_log::Told;

/// A part of a reply in which the two differ, each in words.
#[derive(Clone, Debug, PartialEq, Eq)]
pub struct Difference {
    pub part: &'static str,
    pub told: String,
    pub commanded: String,
}

impl Difference {
    pub fn words(&self) -> String {
        let apart = if self.part.starts_with("line") {
            ":"
        } else {
            ""
        };
        format!(
            "{}{apart} {}, commanded {}",
            self.part, self.told, self.commanded
        )
    }
}

/// What a call commanded, as far as a `told` behind it is compared with it.
#[derive(Clone, Copy, Debug)]
pub struct Commanded(Option<raw::Reply>);

impl Commanded {
    /// A refused begin comes alone, and before the first begin nothing is commanded.
    pub fn by(turn: &Turn) -> Commanded {
        Commanded((!turn.tells_nothing()).then_some(turn.reply))
    }

    pub fn nothing() -> Commanded {
        Commanded(None)
    }

    /// Where the two differ; none if there is nothing to compare with.
    pub fn differences(&self, told: &Told) -> Option<Vec<Difference>> {
        let reply = self.0?;
        let mut found = Vec::new();
        let state = (reply.letter, reply.digit);
        compare(&mut found, "state", told.state, state, |state| {
            state_word(state.0, state.1)
        });
        compare(&mut found, "wave", told.wave, reply.wave, wave);
        compare(
            &mut found,
            "contactor",
            told.closed,
            reply.closed,
            |closed| contact_word(closed).to_string(),
        );
        compare(&mut found, "fault", told.fault, reply.fault, fault_words);
        compare(
            &mut found,
            "closings",
            told.closings,
            reply.closings,
            grouped,
        );
        let lines = reply.lines.each();
        for (place, name) in ["line 1", "line 2", "line 3"].into_iter().enumerate() {
            compare(&mut found, name, told.lines[place], lines[place], |line| {
                format!("{} mA", grouped(line))
            });
        }
        Some(found)
    }
}

fn compare<T: PartialEq + Copy>(
    found: &mut Vec<Difference>,
    part: &'static str,
    told: Option<T>,
    commanded: T,
    words: impl Fn(T) -> String,
) {
    if let Some(told) = told.filter(|told| *told != commanded) {
        found.push(Difference {
            part,
            told: words(told),
            commanded: words(commanded),
        });
    }
}

fn fault_words(number: u8) -> String {
    match number {
        0 => "none".to_string(),
        1..=5 => fault(number).to_string(),
        _ => number.to_string(),
    }
}
