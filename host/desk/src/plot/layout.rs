//! Where the parts below the strips stand.

use super::record_strips;
use super::strips::APART;
use super::track::Track;
use super::{AXIS, CAUSES, LEFT};
use crate::lists::Moment;

/// Heights of the rows below the axis, px.
const ROW: f64 = 16.0;
const FIRST_ROW: f64 = 34.0;

/// The heights of the axis and of what stands below it, px.
pub struct Layout {
    pub axis: f64,
    /// The numbers of the lists, where there are several.
    pub lists: Option<f64>,
    /// The wall's clock, where it is known.
    pub wall: Option<f64>,
    pub causes: f64,
}

impl Layout {
    pub fn of(track: &Track) -> Layout {
        let below = APART * record_strips::rows(track) as f64;
        let axis = AXIS + below;
        let first = axis + FIRST_ROW;
        let lists = (track.lists.count() > 1).then_some(first);
        let wall = is_known(track).then(|| lists.map_or(first, |lists| lists + ROW));
        // The rows of the wall's clock are two, the time and the date.
        let more = match (lists, wall) {
            (_, None) => 0.0,
            (None, Some(_)) => ROW / 2.0,
            (Some(_), Some(_)) => ROW * 1.5,
        };
        Layout {
            axis,
            lists,
            wall,
            causes: CAUSES + below + more,
        }
    }
}

/// Is the wall's clock known anywhere in the picture? Where it is, it is at the end of a list.
fn is_known(track: &Track) -> bool {
    let mut lists = track.clock.between(track.origin, track.end);
    lists.any(|(list, _, last)| {
        let time = track.clock.own(list, last);
        track.lists.wall(Moment { list, time }).is_some()
    })
}

/// The letters of a text that there is room for from a place on, px for each.
pub fn letters(from: f64, letter: f64) -> usize {
    ((super::RIGHT - from.max(LEFT)) / letter) as usize
}

/// Pieces of a text in lines of so many letters; no piece is parted.
pub fn wrapped<'a>(pieces: impl Iterator<Item = &'a str>, letters: usize) -> Vec<String> {
    let mut lines = vec![String::new()];
    for piece in pieces {
        let last = lines.len() - 1;
        let long = lines[last].chars().count() + 1 + piece.chars().count();
        if lines[last].is_empty() {
            lines[last].push_str(piece);
        } else if long > letters {
            lines.push(piece.to_string());
        } else {
            lines[last].push(' ');
            lines[last].push_str(piece);
        }
    }
    lines
}
