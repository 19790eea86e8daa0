//! The allowed current, the limit, the grant of a digital post, and what was measured.

use super::reduce::{reduce, steps, Point};
use super::scale::{Panel, Scale};
use super::svg::{Anchor, Svg};
use super::track::{Run, Track};
use super::{CURRENTS, CURRENTS_END, LEFT, RIGHT};
use crate::words::largest;

/// A measured current, and the ring around the largest of three, px.
const DOT: f64 = 2.2;
const RING: f64 = 3.8;

/// How the grant is drawn, where a list is digital: broad and pale, so that it is seen behind what is allowed.
const GRANT: &str = ".grant{fill:none;stroke:#ffbfe0;stroke-width:5}";

/// Ends of the panel, A.
const TOPS: [u32; 6] = [10, 20, 40, 60, 90, 200];

pub fn draw(svg: &mut Svg, track: &Track, scale: &Scale) {
    let most = most(track);
    let panel = Panel {
        top: CURRENTS,
        height: CURRENTS_END - CURRENTS,
        most: f64::from(most) * 1_000.0,
        least: 0.0,
    };
    for amps in [0, most / 2, most] {
        let y = panel.y(f64::from(amps) * 1_000.0);
        let label = format!("{amps} A");
        svg.line((LEFT, y), (RIGHT, y), "grid");
        svg.text(LEFT - 8.0, y + 4.0, 12.0, Anchor::End, "", &label);
    }
    svg.text(8.0, CURRENTS - 6.0, 12.0, Anchor::Start, "title", "current");
    lines(svg, track, scale, &panel);
    svg.frame(LEFT, panel.top, RIGHT - LEFT, panel.height);
    legend(svg, track);
}

fn lines(svg: &mut Svg, track: &Track, scale: &Scale, panel: &Panel) {
    let place = |run: &Run<u32>| (scale.x(run.0), panel.y(run.1.into()));
    let line = |runs: &[Run<u32>]| steps(runs.iter().map(place), scale.x(track.end));
    svg.path(&line(&track.rated), "rated");
    if track.digital {
        svg.style(GRANT);
        svg.path(&line(&track.grant), "grant");
    }
    // A dot is broader than a line, and is seen behind it.
    dots(svg, track, scale, panel);
    svg.path(&line(&track.allowed), "announced");
    svg.path(&line(&track.limit), "limit");
}

fn dots(svg: &mut Svg, track: &Track, scale: &Scale, panel: &Panel) {
    let places = |current: fn([u32; 3]) -> u32| {
        reduce(track.measured.iter().map(|&(at, lines)| Point {
            x: scale.x(at),
            y: panel.y(current(lines).into()),
            joined: false,
        }))
    };
    let mut draw = |current, radius, class| {
        for dot in places(current) {
            svg.circle(dot.x, dot.y, radius, class);
        }
    };
    if !track.three_lines {
        return draw(|lines| lines[0], DOT, "measured");
    }
    draw(|lines| lines[0], DOT, "line1");
    draw(|lines| lines[1], DOT, "line2");
    draw(|lines| lines[2], DOT, "line3");
    draw(|lines| largest(lines).1, RING, "largest");
}

/// The least end that all currents stay below.
fn most(track: &Track) -> u32 {
    let runs = track.limit.iter().chain(&track.rated).chain(&track.grant);
    let measured = track.measured.iter().map(|run| largest(run.1).1);
    let all = runs.map(|run| run.1).chain(measured);
    let greatest = all.max().unwrap_or(0);
    let above = |top: &&u32| **top * 1_000 > greatest;
    *TOPS.iter().find(above).unwrap_or(&TOPS[TOPS.len() - 1])
}

/// Lines by class, words and room; a plain post announces what it allows.
const PLAIN: [(&str, &str, f64); 3] = [
    ("announced", "announced", 110.0),
    ("limit", "depot's limit", 118.0),
    ("rated", "rated", 78.0),
];
const DIGITAL: [(&str, &str, f64); 4] = [
    ("announced", "allowed", 94.0),
    ("grant", "grant", 84.0),
    ("limit", "depot's limit", 118.0),
    ("rated", "rated", 78.0),
];

fn legend(svg: &mut Svg, track: &Track) {
    let dots: &[(&str, &str, f64)] = match track.three_lines {
        false => &[("measured", "measured", DOT)],
        true => &[
            ("line1", "line 1", DOT),
            ("line2", "line 2", DOT),
            ("line3", "line 3", DOT),
            ("largest", "largest", RING),
        ],
    };
    let lines: &[(&str, &str, f64)] = if track.digital { &DIGITAL } else { &PLAIN };
    let room: f64 = lines.iter().map(|line| line.2).sum();
    let y = CURRENTS - 6.0;
    let mut x = RIGHT - 46.0 - room - 68.0 * dots.len() as f64;
    for &(class, words, width) in lines {
        svg.line((x, y - 4.0), (x + 24.0, y - 4.0), class);
        svg.text(x + 30.0, y, 11.0, Anchor::Start, "faint", words);
        x += width;
    }
    dots.iter().fold(x, |x, &(class, words, radius)| {
        svg.circle(x + 12.0, y - 4.0, radius, class);
        svg.text(x + 20.0, y, 11.0, Anchor::Start, "faint", words);
        x + 68.0
    });
}
