//! The time axis: the post's own time in each list, and the wall's.

use super::layout::Layout;
use super::scale::Scale;
use super::svg::{Anchor, Svg};
use super::track::Track;
use super::{LEFT, RIGHT, WIDTH};
use crate::lists::Moment;
use crate::words::grouped;
use chuldariin_log::Wall;

/// Least room between two labels of the axis, px.
const ROOM: f64 = 90.0;
/// A letter of a list's number takes so much, with the room around it, px.
const LIST_LETTER: f64 = 8.5;

const SECOND: u64 = 1_000;
const MINUTE: u64 = 60 * SECOND;
const HOUR: u64 = 60 * MINUTE;
const DAY: u64 = 24 * HOUR;

/// Steps of the axis, ms.
const STEPS: [u64; 32] = [
    1,
    2,
    5,
    10,
    20,
    50,
    100,
    200,
    500,
    SECOND,
    2 * SECOND,
    5 * SECOND,
    10 * SECOND,
    20 * SECOND,
    30 * SECOND,
    MINUTE,
    2 * MINUTE,
    5 * MINUTE,
    10 * MINUTE,
    20 * MINUTE,
    30 * MINUTE,
    HOUR,
    2 * HOUR,
    3 * HOUR,
    6 * HOUR,
    12 * HOUR,
    DAY,
    7 * DAY,
    30 * DAY,
    100 * DAY,
    365 * DAY,
    3_650 * DAY,
];

/// The steps of an axis, and how its times are written.
#[derive(Clone, Copy)]
pub struct Unit {
    /// From label to label, ms.
    step: u64,
}

impl Unit {
    /// The least step that leaves room for the labels.
    pub fn of(scale: &Scale) -> Unit {
        let longest = STEPS[STEPS.len() - 1];
        let fits = |step: &&u64| scale.width(**step) >= ROOM;
        let step = match STEPS.iter().find(fits) {
            Some(step) => *step,
            None => longest * (scale.span() / longest / 10 + 1),
        };
        Unit { step }
    }

    /// The unit of the labels, ms, and its name.
    fn name(self) -> (u64, &'static str) {
        match self.step {
            0..SECOND => (1, "ms"),
            SECOND..MINUTE => (SECOND, "s"),
            MINUTE..HOUR => (MINUTE, "min"),
            HOUR..DAY => (HOUR, "h"),
            _ => (DAY, "d"),
        }
    }

    fn label(self, time: u64) -> String {
        let (unit, name) = self.name();
        format!("{} {name}", grouped(time / unit))
    }

    /// The wall's time of day.
    fn clock(self, wall: Wall) -> String {
        let (hour, minute, second, millis) = wall.clock();
        match self.step < SECOND {
            true => format!("{hour:02}:{minute:02}:{second:02}.{millis:03}"),
            false => format!("{hour:02}:{minute:02}:{second:02}"),
        }
    }

    /// A time to the millisecond, in the axis' unit and those below it: 5 min 12.345 s.
    pub fn exact(self, time: u64) -> String {
        let (largest, _) = self.name();
        if largest == 1 {
            return format!("{} ms", grouped(time));
        }
        let (mut words, mut rest) = (String::new(), time);
        for (unit, name) in [(DAY, "d"), (HOUR, "h"), (MINUTE, "min")] {
            let is_shown = !words.is_empty() || rest >= unit;
            if unit <= largest && is_shown {
                words.push_str(&format!("{} {name} ", grouped(rest / unit)));
                rest %= unit;
            }
        }
        format!("{words}{}.{:03} s", grouped(rest / SECOND), rest % SECOND)
    }
}

pub fn draw(svg: &mut Svg, track: &Track, scale: &Scale, layout: &Layout) {
    let unit = Unit::of(scale);
    let ticks = ticks(track, scale, unit);
    for &(x, moment) in &ticks {
        svg.line((x, layout.axis - 4.0), (x, layout.axis + 4.0), "frame");
        label(svg, x, layout.axis + 18.0, 12.0, &unit.label(moment.time));
    }
    svg.line((LEFT, layout.axis), (RIGHT, layout.axis), "frame");
    if let Some(y) = layout.lists {
        lists(svg, track, scale, y);
    }
    if let Some(y) = layout.wall {
        svg.text(8.0, y, 11.0, Anchor::Start, "title", "wall");
        walls(svg, track, &ticks, y, unit);
    }
}

/// The places that are labelled, and their moments: round times of the post's clock in each list.
fn ticks(track: &Track, scale: &Scale, unit: Unit) -> Vec<(f64, Moment)> {
    let lists = track.clock.between(track.origin, track.end);
    let round = lists.flat_map(|(list, first, last)| {
        let [from, to] = [first, last].map(|at| track.clock.own(list, at));
        let start = from.div_ceil(unit.step).saturating_mul(unit.step);
        let times = std::iter::successors(Some(start), move |time| time.checked_add(unit.step));
        let times = times.take_while(move |time| *time <= to);
        times.map(move |time| (scale.x(first + (time - from)), Moment { list, time }))
    });
    let mut ticks: Vec<(f64, Moment)> = Vec::new();
    // A list that is narrower than the labels may have one, and no more.
    for tick in round {
        if ticks
            .last()
            .is_none_or(|last| tick.0 - last.0 >= ROOM - 0.01)
        {
            ticks.push(tick);
        }
    }
    ticks
}

/// A label must not leave the picture.
fn label(svg: &mut Svg, x: f64, y: f64, size: f64, words: &str) {
    let (x, anchor) = match x > RIGHT - ROOM / 2.0 {
        true => (x + 30.0, Anchor::End),
        false => (x, Anchor::Middle),
    };
    svg.text(x, y, size, anchor, "", words);
}

/// Where each list begins, or goes on at the start, and its number.
fn lists(svg: &mut Svg, track: &Track, scale: &Scale, y: f64) {
    let mut free = f64::MIN;
    for (list, first, _) in track.clock.between(track.origin, track.end) {
        let (x, words) = (scale.x(first), format!("list {list}"));
        let room = LIST_LETTER * words.len() as f64;
        // The last one must not leave the picture.
        let is_last = x + room > WIDTH;
        if x - if is_last { room } else { 0.0 } < free {
            continue;
        }
        free = x + room;
        svg.line((x, y - 9.0), (x, y + 2.0), "frame");
        match is_last {
            true => svg.text(x - 4.0, y, 11.0, Anchor::End, "title", &words),
            false => svg.text(x + 4.0, y, 11.0, Anchor::Start, "title", &words),
        }
    }
}

/// The wall's time at each label, and its date where that is another.
fn walls(svg: &mut Svg, track: &Track, ticks: &[(f64, Moment)], y: f64, unit: Unit) {
    let mut shown = None;
    for &(x, moment) in ticks {
        let Some(wall) = track.lists.wall(moment) else {
            continue;
        };
        label(svg, x, y, 11.0, &unit.clock(wall));
        let date = wall.date();
        if shown != Some(date) {
            shown = Some(date);
            let (year, month, day) = date;
            label(
                svg,
                x,
                y + 14.0,
                11.0,
                &format!("{year:04}-{month:02}-{day:02}"),
            );
        }
    }
}
