//! Time and values to places.

use super::track::Track;
use super::{LEFT, RIGHT};

/// Places of the axis to places of the picture.
pub struct Scale {
    origin: u64,
    span: u64,
}

impl Scale {
    pub fn of(track: &Track) -> Scale {
        Scale {
            origin: track.origin,
            span: (track.end - track.origin).max(1),
        }
    }

    /// Where a time of the axis stands; what lies outside of the picture stands at its end.
    pub fn x(&self, at: u64) -> f64 {
        let since = at.saturating_sub(self.origin).min(self.span);
        LEFT + (RIGHT - LEFT) * since as f64 / self.span as f64
    }

    /// How wide a time is.
    pub fn width(&self, millis: u64) -> f64 {
        (RIGHT - LEFT) * millis as f64 / self.span as f64
    }

    pub fn span(&self) -> u64 {
        self.span
    }
}

/// A panel of values: its top and height, px, and the values there.
pub struct Panel {
    pub top: f64,
    pub height: f64,
    pub most: f64,
    pub least: f64,
}

impl Panel {
    /// The place of a value.
    pub fn y(&self, value: f64) -> f64 {
        self.top + self.height * (self.most - value) / (self.most - self.least)
    }
}
