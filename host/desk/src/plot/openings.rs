//! The list of openings with their causes.

use super::axis::Unit;
use super::layout::{letters, wrapped};
use super::svg::{Anchor, Svg};
use super::track::{Mark, Sign, Track};
use super::LEFT;
use crate::words::{counted, grouped};

/// Height of a line of the list, px, and the room that a letter takes.
const LINE: f64 = 18.0;
const LETTER: f64 = 7.0;
/// Between two columns, px.
const GAP: f64 = 14.0;
/// So many openings are listed.
const LISTED: usize = 40;

/// An opening as it is listed: its number, and its moment as `--at` takes it, as the axis has it, and by the wall's clock.
struct Row<'a> {
    cells: [String; 4],
    words: &'a str,
}

/// The openings from a height on; the end of the list.
pub fn list(svg: &mut Svg, track: &Track, unit: Unit, top: f64) -> f64 {
    let heading = match track.openings {
        0 => "No opening".to_string(),
        openings => format!(
            "{} (red), each with its time as --at takes it",
            counted(openings, "opening")
        ),
    };
    let heading = format!("{heading}; closings are green, begins dotted");
    svg.text(LEFT, top, 12.0, Anchor::Start, "title", &heading);
    let opened = track.marks.iter().filter(|mark| mark.sign == Sign::Opened);
    let rows: Vec<Row> = opened
        .take(LISTED)
        .map(|mark| row(track, unit, mark))
        .collect();
    let ends = columns(&rows);
    let mut y = top + LINE + 2.0;
    for row in &rows {
        y = listed(svg, row, &ends, y);
    }
    match track.openings.saturating_sub(LISTED as u64) {
        0 => y,
        more => {
            let words = format!("and {} more: replay the log to see them", grouped(more));
            svg.text(ends[3] + GAP, y, 12.0, Anchor::Start, "faint", &words);
            y + LINE
        }
    }
}

fn row<'a>(track: &Track, unit: Unit, mark: &'a Mark) -> Row<'a> {
    let wall = track.lists.wall(mark.moment);
    Row {
        cells: [
            mark.number.to_string(),
            mark.moment.shown(track.lists.count()),
            unit.exact(mark.moment.time),
            wall.map_or(String::new(), |wall| wall.to_string()),
        ],
        words: mark.words.strip_prefix("OPENED: ").unwrap_or(&mark.words),
    }
}

/// The right end of each column: it is as wide as its longest text.
fn columns(rows: &[Row]) -> [f64; 4] {
    let mut end = LEFT - GAP;
    [0, 1, 2, 3].map(|column| {
        let lengths = rows.iter().map(|row| row.cells[column].len());
        match lengths.max().unwrap_or(0) {
            0 => end,
            longest => {
                end += GAP + LETTER * longest.max(2) as f64;
                end
            }
        }
    })
}

/// One opening; where the next one stands.
fn listed(svg: &mut Svg, row: &Row, ends: &[f64; 4], y: f64) -> f64 {
    let cells = row.cells.iter().zip(ends);
    for (cell, end) in cells.filter(|cell| !cell.0.is_empty()) {
        svg.text(*end, y, 12.0, Anchor::End, "", cell);
    }
    causes(svg, row.words, ends[3] + GAP, y)
}

/// The causes of an opening, in as many lines as they need.
fn causes(svg: &mut Svg, words: &str, x: f64, y: f64) -> f64 {
    let mut below = y;
    for line in wrapped(words.split(' '), letters(x, LETTER)) {
        svg.text(x, below, 12.0, Anchor::Start, "", &line);
        below += LINE;
    }
    below
}
