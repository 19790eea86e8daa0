//! The high and the low level over the bands.

use super::reduce::{reduce, Point};
use super::scale::{Panel, Scale};
use super::svg::{Anchor, Svg};
use super::track::{Levels, Track};
use super::{LEFT, LEVELS, LEVELS_END, RIGHT};

/// Name, ends in mV, and colour of each band.
const BANDS: [(&str, i32, i32, &str); 6] = [
    ("A", 11_000, 13_000, "#eaeef2"),
    ("B", 8_000, 10_000, "#fff1c2"),
    ("C", 5_000, 7_000, "#cdf3d5"),
    ("D", 2_000, 4_000, "#cbe8f7"),
    ("E", -1_000, 1_000, "#ffdfe0"),
    ("low", -13_000, -11_000, "#eaeef2"),
];

/// A sound sample's high level lies between these, mV.
const SOUND: [i32; 2] = [1_500, 7_500];

/// So few samples get a dot each.
const FEW: usize = 250;

const PANEL: Panel = Panel {
    top: LEVELS,
    height: LEVELS_END - LEVELS,
    most: 15_000.0,
    least: -15_000.0,
};

pub fn draw(svg: &mut Svg, track: &Track, scale: &Scale) {
    bands(svg);
    for edge in SOUND {
        let y = PANEL.y(edge.into());
        svg.line((LEFT, y), (RIGHT, y), "edge");
    }
    volts(svg);
    svg.text(8.0, PANEL.top + 12.0, 12.0, Anchor::Start, "title", "pilot");
    lines(svg, track, scale);
    svg.frame(LEFT, PANEL.top, RIGHT - LEFT, PANEL.height);
}

fn bands(svg: &mut Svg) {
    for (name, least, most, colour) in BANDS {
        let top = PANEL.y(most.into());
        let height = PANEL.y(least.into()) - top;
        let (x, y) = (RIGHT + 6.0, top + height / 2.0 + 4.0);
        svg.fill(LEFT, top, RIGHT - LEFT, height, colour);
        svg.text(x, y, 12.0, Anchor::Start, "faint", name);
    }
}

fn volts(svg: &mut Svg) {
    for volts in [-12, -9, -6, -3, 0, 3, 6, 9, 12] {
        let y = PANEL.y(f64::from(volts) * 1_000.0);
        let label = format!("{volts} V");
        svg.line((LEFT - 4.0, y), (LEFT, y), "frame");
        svg.text(LEFT - 8.0, y + 4.0, 12.0, Anchor::End, "", &label);
    }
}

fn lines(svg: &mut Svg, track: &Track, scale: &Scale) {
    let point = |levels: &Levels, level: i32| Point {
        x: scale.x(levels.at),
        y: PANEL.y(level.into()),
        joined: levels.joined,
    };
    let low = |levels: &Levels| point(levels, levels.low);
    let high = |levels: &Levels| point(levels, levels.high);
    svg.path(&reduce(track.samples.iter().map(low)), "low");
    svg.path(&reduce(track.samples.iter().map(high)), "high");
    if track.samples.len() <= FEW {
        for sample in &track.samples {
            let (high, low) = (high(sample), low(sample));
            svg.circle(low.x, low.y, 1.8, "faint");
            svg.circle(high.x, high.y, 2.2, "dot");
        }
    }
}
