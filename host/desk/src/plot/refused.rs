//! The refused calls, by the number of their refusal.

use super::scale::Scale;
use super::strips::{fits, label, strip, top, Part, Span};
use super::svg::{Anchor, Svg};
use super::track::Track;
use super::{LEFT, RIGHT};
use crate::words::{counted, grouped, REFUSALS};

/// A call is drawn so wide to each side, px.
const HALF: f64 = 1.0;
/// Different refusals that are nearer than this are one part, px.
const NEAR: f64 = 3.0;
/// Beside a part a label stands so far from it, px, and may be so wide.
const BESIDE: f64 = 4.0;
const OTHER: f64 = 120.0;

/// How many calls were refused with each number, in the order of the numbers.
type Counts = Vec<(u8, u64)>;

pub fn draw(svg: &mut Svg, track: &Track, scale: &Scale, row: usize) {
    let parts = parts(track, scale);
    strip(svg, row, "refused", &parts, |counts| {
        Some(Part {
            title: title(counts),
            labels: Vec::new(),
            colour: "#9a6700",
        })
    });
    for place in 0..parts.len() {
        number(svg, row, &parts, place);
    }
}

/// The number of a part: in it or, where there is no room for it, beside it.
fn number(svg: &mut Svg, row: usize, parts: &[Span<Counts>], place: usize) {
    let part = &parts[place];
    let labels = labels(&part.value);
    if label(svg, row, (part.from, part.to), &labels, "white") {
        return;
    }
    let fitting = |room: f64| labels.iter().find(|label| fits(label, room));
    let next = parts.get(place + 1).map(|next| next.from);
    let y = top(row) + 13.0;
    if let Some(words) = fitting(next.unwrap_or(RIGHT) - part.to - BESIDE) {
        let x = part.to + BESIDE;
        return svg.text(x, y, 11.0, Anchor::Start, "faint", words);
    }
    // To the left is room for that of the last part only, and for what the part before has to its right.
    let before = place
        .checked_sub(1)
        .map_or(LEFT, |before| parts[before].to + OTHER);
    if let Some(words) = fitting(part.from - before).filter(|_| next.is_none()) {
        let x = part.from - BESIDE;
        svg.text(x, y, 11.0, Anchor::End, "faint", words);
    }
}

/// Neighbours of the same number are one part.
fn parts(track: &Track, scale: &Scale) -> Vec<Span<Counts>> {
    let mut refused = track.refused.clone();
    // A refused call may have a later time than an accepted one after it.
    refused.sort_by_key(|refused| refused.0);
    let mut parts: Vec<Span<Counts>> = Vec::new();
    for (at, number) in refused {
        let x = scale.x(at);
        // At the ends it is as wide as elsewhere.
        let x = x.clamp(LEFT + HALF, RIGHT - HALF);
        let (from, to) = (x - HALF, x + HALF);
        match parts.last_mut().filter(|last| joins(last, from, number)) {
            Some(last) => {
                last.to = last.to.max(to);
                count(&mut last.value, number);
            }
            None => parts.push(Span {
                from: parts.last().map_or(from, |last| last.to.max(from)),
                to,
                value: vec![(number, 1)],
            }),
        }
    }
    parts
}

/// Can a call not be told apart from the part before it?
fn joins(last: &Span<Counts>, from: f64, number: u8) -> bool {
    let known = last.value.iter().any(|count| count.0 == number);
    from <= last.to && (known || last.to - last.from < NEAR)
}

fn count(counts: &mut Counts, number: u8) {
    match counts.binary_search_by_key(&number, |count| count.0) {
        Ok(place) => counts[place].1 += 1,
        Err(place) => counts.insert(place, (number, 1)),
    }
}

fn title(counts: &Counts) -> String {
    let words: Vec<String> = counts
        .iter()
        .map(|&(number, calls)| told(number, calls))
        .collect();
    words.join("; ")
}

fn told(number: u8, calls: u64) -> String {
    format!(
        "refused {number}: {}; {}",
        words(number),
        counted(calls, "call")
    )
}

/// A refusal in words.
pub fn words(number: u8) -> &'static str {
    let known = REFUSALS
        .iter()
        .find(|refusal| refusal.0 == usize::from(number));
    known.map_or("", |refusal| refusal.1)
}

/// The numbers, and how many calls there are.
fn labels(counts: &Counts) -> Vec<String> {
    let numbers: Vec<String> = counts.iter().map(|count| count.0.to_string()).collect();
    let numbers = numbers.join(",");
    match counts.iter().map(|count| count.1).sum::<u64>() {
        0 | 1 => vec![numbers],
        calls => vec![format!("{numbers} ({})", grouped(calls)), numbers],
    }
}
