//! Lines where the contactor closes or opens, and where a list begins.

use super::layout::Layout;
use super::scale::Scale;
use super::svg::Svg;
use super::track::{Sign, Track};
use super::{CURRENTS, CURRENTS_END, LEVELS, LEVELS_END, STRIPS};

/// Through so many marks the panels can still be seen.
const FEW: usize = 80;

/// A line for each; of too many, only what stands above the panels.
pub fn draw(svg: &mut Svg, track: &Track, scale: &Scale, layout: &Layout) {
    let through = [
        (LEVELS - 8.0, LEVELS_END),
        (CURRENTS, CURRENTS_END),
        (STRIPS, layout.axis),
    ];
    let above = [(LEVELS - 8.0, LEVELS)];
    let few = track.marks.len() <= FEW;
    let parts: &[(f64, f64)] = if few { &through } else { &above };
    let mut drawn = [f64::MIN; 3];
    for mark in &track.marks {
        let x = scale.x(mark.at);
        // Lines closer than half a pixel are one.
        let last = &mut drawn[mark.sign as usize];
        if x - *last >= 0.5 {
            *last = x;
            svg.titled_lines(x, parts, class(mark.sign), &mark.words);
        }
    }
}

fn class(sign: Sign) -> &'static str {
    match sign {
        Sign::Begun => "begun",
        Sign::Closed => "closed",
        Sign::Opened => "opened",
    }
}
