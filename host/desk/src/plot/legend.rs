//! The words of what the strips show by letters and numbers, so that they can be read without a pointer.

use super::layout::{letters, wrapped};
use super::refused;
use super::svg::{Anchor, Svg};
use super::track::Track;
use super::LEFT;
use crate::words::fault;
use std::collections::BTreeSet;

/// Height of a line, px, and the room that a letter takes.
const LINE: f64 = 15.0;
const LETTER: f64 = 6.1;

/// What each letter of a state means, in the order of the bands.
const STATES: [(u8, &str); 7] = [
    (b'A', "no van"),
    (b'B', "plugged in"),
    (b'C', "ready"),
    (b'D', "ready and wants ventilation"),
    (b'E', "short circuit or no power"),
    (b'U', "nothing settled"),
    (b'F', "a fault is latched"),
];
const DIGITS: [(u8, &str); 2] = [(2, "wave driven"), (1, "steady")];

/// From a height on; the end of the picture.
pub fn draw(svg: &mut Svg, track: &Track, top: f64) -> f64 {
    let lines = [
        ("contactor", contactor(track)),
        ("state", states(track)),
        ("fault", faults(track)),
        ("refused", refusals(track)),
        ("told", told(track)),
        ("contact", contact(track)),
    ];
    let mut y = top + 6.0;
    for (name, words) in lines.iter().filter(|line| !line.1.is_empty()) {
        y = line(svg, name, words, y);
    }
    y
}

/// The words of one strip; where the next one's stand.
fn line(svg: &mut Svg, name: &str, words: &[String], y: f64) -> f64 {
    svg.text(8.0, y, 11.0, Anchor::Start, "faint", name);
    let last = words.len() - 1;
    let ended = words
        .iter()
        .enumerate()
        .map(|(place, words)| match place == last {
            true => words.clone(),
            false => format!("{words};"),
        });
    let ended: Vec<String> = ended.collect();
    let mut below = y;
    for line in wrapped(ended.iter().map(String::as_str), letters(LEFT, LETTER)) {
        svg.text(LEFT, below, 11.0, Anchor::Start, "faint", &line);
        below += LINE;
    }
    below
}

fn contactor(track: &Track) -> Vec<String> {
    only(
        !track.unjudged.is_empty(),
        "hatched: no accepted call, so nothing was judged",
    )
}

fn states(track: &Track) -> Vec<String> {
    let letters: BTreeSet<u8> = track.state.iter().map(|run| run.1 .0).collect();
    let digits: BTreeSet<u8> = track.state.iter().map(|run| run.1 .1).collect();
    let letters = STATES.iter().filter(|state| letters.contains(&state.0));
    let letters = letters.map(|(letter, words)| format!("{} {words}", char::from(*letter)));
    let digits = DIGITS.iter().filter(|digit| digits.contains(&digit.0));
    let digits = digits.map(|(digit, words)| format!("{digit} {words}"));
    letters.chain(digits).collect()
}

fn faults(track: &Track) -> Vec<String> {
    let latched = track.faults.iter().flat_map(|run| run.1.numbers());
    let numbers: BTreeSet<u8> = latched.collect();
    let words = numbers
        .iter()
        .map(|number| format!("{number} {}", fault(*number)));
    words.collect()
}

fn refusals(track: &Track) -> Vec<String> {
    let numbers: BTreeSet<u8> = track.refused.iter().map(|refused| refused.1).collect();
    let words = numbers
        .iter()
        .map(|number| format!("{number} {}", refused::words(*number)));
    words.collect()
}

fn told(track: &Track) -> Vec<String> {
    only(
        !track.records.differs.is_empty(),
        "red: the post's own log has another reply than the controller's",
    )
}

fn contact(track: &Track) -> Vec<String> {
    only(
        !track.records.failed.is_empty(),
        "red: not as commanded for longer than it may be; WELDED: commanded open, NOT CLOSING: commanded closed",
    )
}

fn only(present: bool, words: &str) -> Vec<String> {
    present.then(|| words.to_string()).into_iter().collect()
}
