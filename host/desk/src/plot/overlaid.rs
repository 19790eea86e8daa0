//! A strip that something lies over: times without a judgement, or a contact that fails.

use super::strips::{fits, label, parts, top, Part, Span, HEIGHT, LETTER};
use super::svg::{Anchor, Svg};
use super::{LEFT, RIGHT};

/// No label needs less room than this, px.
const LEAST: f64 = LETTER + 2.0;

/// What lies over a strip, from one place to another, px.
pub struct Over {
    pub from: f64,
    pub to: f64,
    /// A colour or a pattern.
    pub fill: &'static str,
    pub title: String,
    pub labels: Vec<String>,
}

/// Labels stand where they can be read.
pub fn overlaid<T>(
    svg: &mut Svg,
    row: usize,
    name: &str,
    spans: &[Span<T>],
    overs: &[Over],
    shown: impl Fn(&T) -> Option<Part>,
) {
    parts(svg, row, name, spans, |value| {
        let labels = Vec::new();
        shown(value).map(|part| Part { labels, ..part })
    });
    for over in overs {
        draw(svg, row, over);
    }
    labels(svg, row, spans, overs, shown);
    svg.frame(LEFT, top(row), RIGHT - LEFT, HEIGHT);
}

/// The labels of the parts below.
fn labels<T>(
    svg: &mut Svg,
    row: usize,
    spans: &[Span<T>],
    overs: &[Over],
    shown: impl Fn(&T) -> Option<Part>,
) {
    for span in spans.iter().filter(|span| span.to - span.from > LEAST) {
        let labels = shown(&span.value).map_or(Vec::new(), |part| part.labels);
        label(svg, row, widest(span, overs), &labels, "");
    }
}

/// A label on a pattern needs a ground to be read on.
fn draw(svg: &mut Svg, row: usize, over: &Over) {
    let width = over.to - over.from;
    svg.titled_fill(over.from, top(row), width, HEIGHT, over.fill, &over.title);
    let Some(label) = over.labels.iter().find(|label| fits(label, width)) else {
        return;
    };
    let (x, y) = ((over.from + over.to) / 2.0, top(row));
    if over.fill.starts_with("url") {
        let half = LETTER * 0.45 * label.chars().count() as f64;
        svg.fill(x - half, y + 2.0, 2.0 * half, HEIGHT - 4.0, "#ffffff");
    }
    svg.text(x, y + 13.0, 11.0, Anchor::Middle, "", label);
}

/// The widest place of a part that nothing lies over.
fn widest<T>(span: &Span<T>, overs: &[Over]) -> (f64, f64) {
    let (mut from, mut found) = (span.from, (span.from, span.from));
    let within = overs
        .iter()
        .filter(|over| over.to > span.from && over.from < span.to);
    let gaps = within
        .map(|over| (over.from, over.to))
        .chain([(span.to, span.to)]);
    for (end, next) in gaps {
        if end - from > found.1 - found.0 {
            found = (from, end);
        }
        from = from.max(next);
    }
    found
}
