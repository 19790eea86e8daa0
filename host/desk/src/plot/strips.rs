//! Contactor, state, over-run and fault: what holds from when to when.

use super::overlaid::overlaid;
use super::refused;
use super::scale::Scale;
use super::svg::{Anchor, Svg};
use super::track::{Run, Track};
use super::unjudged;
use super::{LEFT, RIGHT, STRIPS};
use crate::latched::Latched;
use crate::running::{fault_2_at, fault_2_due};
use crate::turn::Overrun;
use chuldariin_log::record::state_word as state;

pub const HEIGHT: f64 = 18.0;
pub const APART: f64 = 24.0;
/// A letter of a label takes so much, px.
pub const LETTER: f64 = 8.0;
/// Narrower parts are drawn so wide, px.
const NARROW: f64 = 0.6;

/// A value from one place to another, px.
pub struct Span<T> {
    pub from: f64,
    pub to: f64,
    pub value: T,
}

/// How a value is shown.
pub struct Part {
    /// What a pointer shows.
    pub title: String,
    /// The longest first.
    pub labels: Vec<String>,
    pub colour: &'static str,
}

impl Part {
    /// The title is the longest label.
    fn new(long: &str, short: &str, colour: &'static str) -> Option<Part> {
        Some(Part {
            title: long.to_string(),
            labels: [long, short].map(str::to_string).into(),
            colour,
        })
    }
}

/// Does a label have room?
pub fn fits(label: &str, width: f64) -> bool {
    width > LETTER * label.chars().count() as f64 + 2.0
}

pub fn draw(svg: &mut Svg, track: &Track, scale: &Scale) {
    let closed = spans(&track.closed, track, scale);
    let unjudged = unjudged::parts(svg, track, scale);
    overlaid(svg, 0, "contactor", &closed, &unjudged, |closed| {
        command(*closed)
    });
    let states = spans(&track.state, track, scale);
    strip(svg, 1, "state", &states, |(letter, digit)| {
        Part::new(&state(*letter, *digit), "", colour(*letter, *digit))
    });
    let overruns = spans(&track.overrun, track, scale);
    strip(svg, 2, "over-run", &overruns, |overrun| {
        overrun.and_then(run_of)
    });
    restarts(svg, &overruns);
    let latched = spans(&track.faults, track, scale);
    strip(svg, 3, "fault", &latched, fault_of);
    behind(svg, &latched);
    refused::draw(svg, track, scale, 4);
}

/// The contactor as it is commanded.
fn command(closed: bool) -> Option<Part> {
    match closed {
        true => Part::new("closed", "", "#2da44e"),
        false => Part::new("open", "", "#eaeef2"),
    }
}

/// An over-run and when fault 2 comes; paler where a lowered duty has restarted it.
fn run_of(overrun: Overrun) -> Option<Part> {
    let (due, short) = (fault_2_due(&overrun), fault_2_at(overrun.start));
    match overrun.restarted() {
        false => Part::new(&format!("over-run: {due}"), &short, "#ffb77c"),
        true => Part::new(
            &format!("restarted at {}: {due}", overrun.start),
            &short,
            "#ffdfb6",
        ),
    }
}

/// The latched faults in their order.
fn fault_of(latched: &Latched) -> Option<Part> {
    let first = latched.numbers().next()?;
    let numbers: Vec<String> = latched.numbers().map(|number| number.to_string()).collect();
    Some(Part {
        title: latched.words(),
        labels: vec![latched.words(), latched.with_more(first), numbers.join(",")],
        colour: "#ff8182",
    })
}

/// A line where a fault comes behind others.
fn behind(svg: &mut Svg, latched: &[Span<Latched>]) {
    let any = |span: &Span<Latched>| span.value.numbers().next().is_some();
    let pairs = latched.windows(2).filter(|pair| pair.iter().all(any));
    divide(svg, 3, pairs.map(|pair| pair[1].from));
}

/// A line where an over-run restarts; one that goes on at the start restarted before it.
fn restarts(svg: &mut Svg, overruns: &[Span<Option<Overrun>>]) {
    let restarted = |overrun: Overrun| overrun.restarted();
    let spans = overruns.iter().filter(|span| span.from > LEFT);
    let spans = spans.filter(|span| span.value.is_some_and(restarted));
    divide(svg, 2, spans.map(|span| span.from));
}

/// Lines through a strip; those closer than half a pixel are one.
fn divide(svg: &mut Svg, row: usize, places: impl Iterator<Item = f64>) {
    let mut places: Vec<f64> = places.collect();
    places.dedup_by(|next, kept| *next - *kept < 0.5);
    let top = top(row);
    for x in places {
        svg.line((x, top), (x, top + HEIGHT), "frame");
    }
}

pub fn spans<T: Clone>(runs: &[Run<T>], track: &Track, scale: &Scale) -> Vec<Span<T>> {
    let ends = runs.iter().skip(1).map(|run| run.0).chain([track.end]);
    let span = |(run, end): (&Run<T>, u64)| Span {
        from: scale.x(run.0),
        to: scale.x(end),
        value: run.1.clone(),
    };
    runs.iter().zip(ends).map(span).collect()
}

/// The top of a strip.
pub fn top(row: usize) -> f64 {
    STRIPS + row as f64 * APART
}

/// One strip: each value is a part of it, or nothing to show.
pub fn strip<T>(
    svg: &mut Svg,
    row: usize,
    name: &str,
    spans: &[Span<T>],
    shown: impl Fn(&T) -> Option<Part>,
) {
    parts(svg, row, name, spans, shown);
    svg.frame(LEFT, top(row), RIGHT - LEFT, HEIGHT);
}

/// The parts without the frame around them.
pub fn parts<T>(
    svg: &mut Svg,
    row: usize,
    name: &str,
    spans: &[Span<T>],
    shown: impl Fn(&T) -> Option<Part>,
) {
    let top = top(row);
    svg.text(8.0, top + 13.0, 12.0, Anchor::Start, "title", name);
    let mut drawn = f64::MIN;
    for span in spans {
        let Some(part) = shown(&span.value) else {
            continue;
        };
        // A narrow part is seen, and what follows it is drawn beside it.
        let from = span.from.max(drawn);
        let width = (span.to - from).max(NARROW);
        if span.to <= from && span.from < from {
            continue;
        }
        drawn = from + width;
        svg.titled_fill(from, top, width, HEIGHT, part.colour, &part.title);
        label(svg, row, (from, drawn), &part.labels, "");
    }
}

/// The longest label that there is room for between two places; was there any?
pub fn label(svg: &mut Svg, row: usize, ends: (f64, f64), labels: &[String], class: &str) -> bool {
    let (from, to) = ends;
    let fitting = labels.iter().find(|label| fits(label, to - from));
    let Some(label) = fitting.filter(|label| !label.is_empty()) else {
        return false;
    };
    let (x, y) = ((from + to) / 2.0, top(row) + 13.0);
    svg.text(x, y, 11.0, Anchor::Middle, class, label);
    true
}

/// Stronger under a driven wave.
fn colour(letter: u8, digit: u8) -> &'static str {
    match (letter, digit) {
        (b'A', _) => "#d0d7de",
        (b'B', 2) => "#fae17d",
        (b'B', _) => "#fff8c5",
        (b'C', 2) => "#aceebb",
        (b'C', _) => "#dafbe1",
        (b'D', 2) => "#9bd3f5",
        (b'D', _) => "#ddf4ff",
        (b'E', _) => "#ffc1c0",
        (b'F', _) => "#ff8182",
        _ => "#ffffff",
    }
}
