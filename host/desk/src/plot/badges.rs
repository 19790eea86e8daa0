//! The numbers of the openings above the panels.

use super::scale::Scale;
use super::svg::{Anchor, Svg};
use super::track::{Mark, Sign, Track};
use super::LEVELS;

/// Between two badges, px.
const APART: f64 = 1.0;

/// One opening, or neighbours that would overlap: their places, px, and numbers.
struct Badge {
    places: (f64, f64),
    numbers: (u64, u64),
}

impl Badge {
    fn words(&self) -> String {
        match self.numbers {
            (first, last) if first == last => first.to_string(),
            (first, last) => format!("{first}-{last}"),
        }
    }

    fn middle(&self) -> f64 {
        (self.places.0 + self.places.1) / 2.0
    }

    fn half_width(&self) -> f64 {
        9.0 + 4.0 * self.words().len().saturating_sub(2) as f64
    }

    fn overlaps(&self, next: &Badge) -> bool {
        next.middle() - next.half_width() < self.middle() + self.half_width() + APART
    }
}

pub fn draw(svg: &mut Svg, track: &Track, scale: &Scale) {
    for badge in badges(track, scale) {
        let (x, words) = (badge.middle(), badge.words());
        svg.pill(x, LEVELS - 17.0, badge.half_width(), 9.0, "red");
        svg.text(x, LEVELS - 13.0, 11.0, Anchor::Middle, "white", &words);
    }
}

/// None is left out: those without room of their own share one.
fn badges(track: &Track, scale: &Scale) -> Vec<Badge> {
    let mut badges: Vec<Badge> = Vec::new();
    let opened = |mark: &&Mark| mark.sign == Sign::Opened;
    for mark in track.marks.iter().filter(opened) {
        let x = scale.x(mark.at);
        let next = Badge {
            places: (x, x),
            numbers: (mark.number, mark.number),
        };
        join(&mut badges, next);
    }
    badges
}

/// Adds a badge; one that grew may reach the one before it.
fn join(badges: &mut Vec<Badge>, mut next: Badge) {
    while let Some(last) = badges.pop_if(|last| last.overlaps(&next)) {
        next = Badge {
            places: (last.places.0, next.places.1),
            numbers: (last.numbers.0, next.numbers.1),
        };
    }
    badges.push(next);
}
