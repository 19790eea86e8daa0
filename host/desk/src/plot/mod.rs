//! The command `plot`: a log as a picture (SVG).
//!
//! | File | What it draws |
//! |---|---|
//! | `window` | nothing: the part of a log that was asked for |
//! | `clock` | nothing: where each list stands on the axis |
//! | `track`, `records` | nothing: what is to be drawn of each call, and of what the post recorded |
//! | `layout` | nothing: where the parts below the strips stand |
//! | `svg` | the picture's elements |
//! | `scale` | time and values to places |
//! | `reduce` | fewer points, where several fall on one pixel |
//! | `levels` | the high and the low level over the bands |
//! | `currents` | the allowed current, the limit, the grant of a digital post, and what was measured |
//! | `strips` | contactor, state, over-run and fault |
//! | `overlaid` | what lies over a strip |
//! | `unjudged` | the times in which nothing was judged, over the contactor's strip |
//! | `refused` | the refused calls |
//! | `record_strips` | what the post recorded |
//! | `axis` | the time axis |
//! | `marks`, `badges` | closings and openings, and the numbers of these |
//! | `openings` | the list of openings with their causes |
//! | `legend` | the words of letters and numbers |

mod axis;
mod badges;
mod clock;
mod currents;
mod layout;
mod legend;
mod levels;
mod marks;
mod openings;
mod overlaid;
mod record_strips;
mod records;
mod reduce;
mod refused;
mod scale;
mod strips;
mod svg;
mod track;
mod unjudged;
mod window;

use crate::input::Log;
use crate::replay::Part;
use crate::words::{counted, grouped};
use axis::Unit;
use layout::Layout;
use scale::Scale;
use std::error::Error;
use svg::{Anchor, Svg};
use track::Track;
pub use window::NothingThere;
use window::{times, Window};

/// The picture's width, px.
const WIDTH: f64 = 1_200.0;
/// The ends of all that is drawn over time, px.
const LEFT: f64 = 92.0;
const RIGHT: f64 = 1_164.0;

/// Tops of the parts, and the ends of those that have lines through them, px. Axis and causes stand lower where the
/// post has recorded something.
const LEVELS: f64 = 92.0;
const LEVELS_END: f64 = 392.0;
const CURRENTS: f64 = 412.0;
const CURRENTS_END: f64 = 528.0;
const STRIPS: f64 = 552.0;
const AXIS: f64 = 676.0;
const CAUSES: f64 = 740.0;

/// So much of the name is shown, in letters.
const NAME: usize = 90;
/// Beside a heading of so many letters there is no room for what the lines are.
const LONG: usize = 82;

const LEGEND: &str =
    "dark line: high level, grey: low level; a sound high level lies strictly between the dotted lines";

/// The whole of a log.
pub const WHOLE: Part = (None, None);

/// The title of a log's picture: its name without its folders.
pub fn title(name: &str) -> String {
    name.rsplit('/').next().unwrap_or(name).to_string()
}

/// The picture of a log, from one moment to another.
pub fn plot(log: &Log, name: &str, part: Part) -> Result<String, Box<dyn Error>> {
    let window = Window::of(log, part)?;
    let track = Track::of(log, &window)?;
    let (scale, layout) = (Scale::of(&track), Layout::of(&track));
    let mut svg = Svg::new();
    heading(&mut svg, &track, name);
    remarks(&mut svg, &track, log.damage.bad_lines());
    levels::draw(&mut svg, &track, &scale);
    currents::draw(&mut svg, &track, &scale);
    strips::draw(&mut svg, &track, &scale);
    record_strips::draw(&mut svg, &track, &scale);
    axis::draw(&mut svg, &track, &scale, &layout);
    marks::draw(&mut svg, &track, &scale, &layout);
    badges::draw(&mut svg, &track, &scale);
    let unit = Unit::of(&scale);
    let end = openings::list(&mut svg, &track, unit, layout.causes);
    let end = legend::draw(&mut svg, &track, end);
    Ok(svg.done(WIDTH, end))
}

fn heading(svg: &mut Svg, track: &Track, name: &str) {
    let begins = match track.begins {
        0 | 1 => String::new(),
        begins => format!("{} begins, ", grouped(begins)),
    };
    let words = format!(
        "{begins}{}, {}: {}, {}, {} refused",
        counted(track.calls, "call"),
        times(track.first, track.last, track.lists.count()),
        counted(track.closings, "closing"),
        counted(track.openings, "opening"),
        grouped(track.refused_calls),
    );
    svg.text(LEFT, 24.0, 16.0, Anchor::Start, "title", &shortened(name));
    svg.text(LEFT, 44.0, 12.0, Anchor::Start, "", &words);
    if let Some(walls) = walls(track) {
        svg.text(LEFT, 60.0, 12.0, Anchor::Start, "", &walls);
    }
    let y = if words.len() > LONG { 60.0 } else { 44.0 };
    svg.text(RIGHT, y, 11.0, Anchor::End, "faint", LEGEND);
}

/// What the picture does not show.
fn remarks(svg: &mut Svg, track: &Track, bad_lines: u64) {
    let mut remarks = Vec::new();
    if track.strays > 0 {
        let calls = counted(track.strays, "call");
        remarks.push(format!(
            "{calls} at times of this part refused for these, and made at another"
        ));
    }
    let strayed = track
        .unjudged
        .iter()
        .filter_map(|unjudged| unjudged.silence);
    let strayed = strayed.filter(|silence| silence.strayed && silence.is_long());
    if let Some(longest) = strayed.map(|silence| silence.long).max() {
        let long = grouped(longest);
        remarks.push(format!(
            "at least {long} ms not judged, by the refused calls' own times"
        ));
    }
    if bad_lines > 0 {
        remarks.push(format!("{} left out", counted(bad_lines, "bad line")));
    }
    if !remarks.is_empty() {
        let words = remarks.join("; ");
        svg.text(RIGHT, 24.0, 12.0, Anchor::End, "alarm", &words);
    }
}

/// Both ends by the wall's clock, as far as it is known.
fn walls(track: &Track) -> Option<String> {
    let [first, last] = [track.first, track.last].map(|moment| track.lists.wall(moment));
    match (first, last) {
        (Some(first), Some(last)) => Some(format!("{first} to {last}")),
        (None, Some(last)) => Some(format!("to {last}")),
        (Some(first), None) => Some(format!("from {first} on")),
        (None, None) => None,
    }
}

/// A name that there is room for: of a long one the end.
fn shortened(name: &str) -> String {
    let letters: Vec<char> = name.chars().collect();
    match letters.len().checked_sub(NAME) {
        None | Some(0) => name.to_string(),
        Some(more) => format!("..{}", letters[more..].iter().collect::<String>()),
    }
}
