//! What two unsound samples show: cause (i) told apart by its levels. Most vans end their charge by it.

use crate::turn::{Sample, Turn};
use chuldariin_model::{in_low_band, Band};

/// What the samples of an opening by cause (i) show.
#[derive(Clone, Copy, Debug, PartialEq, Eq)]
pub enum Unsound {
    BackInB,
    Unplugged,
    /// Band E.
    Short,
    Between,
    Beyond,
    NoLow,
    /// The two samples differ.
    Changing,
}

/// All of them, in the order in which they are told.
pub const UNSOUND: [Unsound; 7] = [
    Unsound::BackInB,
    Unsound::Unplugged,
    Unsound::Short,
    Unsound::Between,
    Unsound::Beyond,
    Unsound::NoLow,
    Unsound::Changing,
];

impl Unsound {
    pub fn of(previous: &Sample, this: &Sample) -> Unsound {
        match (one(previous), one(this)) {
            (first, second) if first == second => second,
            // A plug that is drawn passes B.
            (Unsound::BackInB, Unsound::Unplugged) => Unsound::Unplugged,
            _ => Unsound::Changing,
        }
    }

    /// What is behind an opening, if cause (i) held.
    pub fn behind(turn: &Turn) -> Option<Unsound> {
        match (turn.outcome.causes[0], turn.sample, turn.previous) {
            (true, Some(this), Ok(previous)) => Some(Unsound::of(&previous, &this)),
            _ => None,
        }
    }

    pub fn words(self) -> &'static str {
        match self {
            Unsound::BackInB => "van back in B",
            Unsound::Unplugged => "unplugged, A",
            Unsound::Short => "short circuit or no power, E",
            Unsound::Between => "level between bands",
            Unsound::Beyond => "level beyond all bands",
            Unsound::NoLow => "no low level",
            Unsound::Changing => "one unlike the other",
        }
    }

    /// Drivers do this: it is no trouble.
    pub fn is_usual(self) -> bool {
        matches!(self, Unsound::BackInB | Unsound::Unplugged)
    }
}

/// What one unsound sample shows.
fn one(sample: &Sample) -> Unsound {
    let no_low = sample.driven && !in_low_band(sample.low);
    match sample.verdict.band {
        Some(Band::A) => Unsound::Unplugged,
        Some(Band::E) => Unsound::Short,
        Some(Band::B) if !no_low => Unsound::BackInB,
        None if !(-1_000..=13_000).contains(&sample.high) => Unsound::Beyond,
        None if !(1_501..7_500).contains(&sample.high) => Unsound::Between,
        _ => Unsound::NoLow,
    }
}
