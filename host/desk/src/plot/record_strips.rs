//! The strips of what the post recorded: the replies it was told, the auxiliary contact and the panel.

use super::overlaid::{overlaid, Over};
use super::records::Failed;
use super::scale::Scale;
use super::strips::{fits, spans, strip, top, Part, Span, HEIGHT};
use super::svg::Svg;
use super::track::Track;
use super::{LEFT, RIGHT};
use crate::words::grouped;
use chuldariin_log::record::contact_word;

/// The first row below the refused calls.
const FIRST: usize = 5;
/// Where a reply differs the strip is red at its foot, so high, px, and at least so wide.
const FOOT: f64 = 5.0;
const NARROW: f64 = 3.0;

const CLOSED: &str = "#8ddb8c";
const OPEN: &str = "#eaeef2";
const RED: &str = "#ff8182";
const STRONG_RED: &str = "#cf222e";
/// So that two texts of the panel can be told apart.
const PALE: [&str; 2] = ["#fff1c2", "#ddf4ff"];

/// Which of the strips a picture has.
fn present(track: &Track) -> [bool; 3] {
    let records = &track.records;
    [
        !records.told.is_empty(),
        !records.contact.is_empty(),
        !records.panel.is_empty(),
    ]
}

/// How many strips there are.
pub fn rows(track: &Track) -> usize {
    present(track).iter().filter(|strip| **strip).count()
}

pub fn draw(svg: &mut Svg, track: &Track, scale: &Scale) {
    let strips = [told, contact, panel];
    let present = strips.into_iter().zip(present(track));
    let present = present.filter(|strip| strip.1);
    for (row, (strip, _)) in (FIRST..).zip(present) {
        strip(svg, track, scale, row);
    }
}

fn part(word: &str, title: String, colour: &'static str) -> Option<Part> {
    let labels = vec![word.to_string()];
    Some(Part {
        title,
        labels,
        colour,
    })
}

fn colour(closed: bool) -> &'static str {
    if closed {
        CLOSED
    } else {
        OPEN
    }
}

/// The contactor as the post's own log has it, and where any part of a reply differs.
fn told(svg: &mut Svg, track: &Track, scale: &Scale, row: usize) {
    let told = spans(&track.records.told, track, scale);
    strip(svg, row, "told", &told, |closed| {
        let word = contact_word((*closed)?);
        part(word, format!("told {word}"), colour((*closed)?))
    });
    for span in differing(track, scale) {
        let (first, count) = span.value;
        let words = &track.records.differences[first];
        let title = match count {
            1 => format!("DIFFERS: told {words}"),
            _ => format!("DIFFERS {} times; first: told {words}", grouped(count)),
        };
        let foot = top(row) + HEIGHT - FOOT;
        svg.titled_fill(
            span.from,
            foot,
            span.to - span.from,
            FOOT,
            STRONG_RED,
            &title,
        );
    }
}

/// Replies that differ, neighbours in one: the words of the first, and how many they are.
fn differing(track: &Track, scale: &Scale) -> Vec<Span<(usize, u64)>> {
    let mut spans: Vec<Span<(usize, u64)>> = Vec::new();
    for &(at, words) in &track.records.differs {
        let x = (scale.x(at) - NARROW / 2.0).clamp(LEFT, RIGHT - NARROW);
        match spans.last_mut().filter(|last| x <= last.to) {
            Some(last) => {
                last.to = last.to.max(x + NARROW);
                last.value.1 += 1;
            }
            None => spans.push(Span {
                from: x,
                to: x + NARROW,
                value: (words, 1),
            }),
        }
    }
    spans
}

/// The auxiliary contact as it was reported, red where it does not follow its command.
fn contact(svg: &mut Svg, track: &Track, scale: &Scale, row: usize) {
    let reported = spans(&track.records.contact, track, scale);
    let failed = failed(track, scale);
    overlaid(svg, row, "contact", &reported, &failed, |closed| {
        let word = contact_word(*closed);
        part(word, word.to_string(), colour(*closed))
    });
}

/// Failures that can't be told apart are one, with the words of the first.
fn failed(track: &Track, scale: &Scale) -> Vec<Over> {
    let mut overs: Vec<Over> = Vec::new();
    for failed in &track.records.failed {
        let from = scale.x(failed.from).min(RIGHT - NARROW);
        let to = scale.x(failed.to).max(from + NARROW);
        match overs.last_mut().filter(|last| from < last.to) {
            Some(last) => last.to = last.to.max(to),
            None => overs.push(Over {
                from,
                to,
                fill: RED,
                title: failure(track, failed),
                labels: vec![failed.fails.words().to_string()],
            }),
        }
    }
    overs
}

fn failure(track: &Track, failed: &Failed) -> String {
    let shown = |at| track.clock.moment(at).shown(track.lists.count());
    let (words, command) = (failed.fails.words(), failed.fails.command());
    let end = match failed.over {
        true => format!("to {}", shown(failed.to)),
        false => "to the end of the log".to_string(),
    };
    format!(
        "{words} from {} {end}, {} ms: commanded {command}",
        shown(failed.from),
        grouped(failed.to - failed.from)
    )
}

/// What the panel showed, cut where there is no room for all of it.
fn panel(svg: &mut Svg, track: &Track, scale: &Scale, row: usize) {
    let texts = spans(&track.records.panel, track, scale);
    let cut: Vec<Span<(String, String, usize)>> = texts
        .into_iter()
        .enumerate()
        .map(|(place, span)| Span {
            from: span.from,
            to: span.to,
            value: (cut(&span.value, span.to - span.from), span.value, place),
        })
        .collect();
    strip(svg, row, "panel", &cut, |(label, text, place)| {
        part(label, text.clone(), PALE[place % 2])
    });
}

/// As much of a text as there is room for.
fn cut(text: &str, width: f64) -> String {
    if fits(text, width) {
        return text.to_string();
    }
    let mut letters: Vec<char> = text.chars().take((width / 4.0) as usize).collect();
    let with_dots = |letters: &[char]| format!("{}..", letters.iter().collect::<String>());
    while !letters.is_empty() && !fits(&with_dots(&letters), width) {
        letters.pop();
    }
    match letters.is_empty() {
        true => String::new(),
        false => with_dots(&letters),
    }
}
