//! The lists of the trials: styles of scenes, each with its seeds.

use crate::author::{Author, Scene};
use crate::disturbances::*;
use crate::linked::*;
use crate::orders::*;
use crate::scenes::*;
use crate::trial::Played;
use std::ops::Range;

/// A name, how many lists, and the scenes that make them.
pub type Style = (&'static str, u64, &'static [Scene]);

pub const STYLES: [Style; 10] = [
    (
        "charging",
        900,
        &[charge, charge, leave, close, begin_again],
    ),
    (
        "levels",
        1_200,
        &[unsound, no_band, sway, low_ends, late_d, flicker, leave],
    ),
    (
        "ages",
        600,
        &[starve, over_run, slow_down, stop, stop_unseen, close],
    ),
    (
        "faults",
        1_000,
        &[faults, no_diode, starve, late_d, stop_unseen],
    ),
    ("windows", 500, &[irregular_windows, irregular_among_good]),
    ("refusals", 800, &[refusals, begin_again, close, unbegun]),
    ("clock", 600, &[last_moments, begin_again, close, starve]),
    ("anything", 2_500, &[anything, anything_closed]),
    (
        "linked",
        800,
        &[
            charge_by_link,
            late_grant,
            next_van,
            stop_by_grant,
            given_back,
            both_reasons,
            over_least,
            a_with_a_latch,
        ],
    ),
    (
        "orders",
        600,
        &[over_current_and_more, no_diode_and_more, one_by_one],
    ),
];

/// The seeds of a style's lists.
fn seeds(style: usize) -> Range<u64> {
    let first = style as u64 * 1_000_000;
    first..first + STYLES[style].1
}

/// The seeds of all styles, style by style, up to a hundred together.
pub fn parts() -> Vec<(usize, Range<u64>)> {
    let of_style = |style| {
        let all = seeds(style);
        let starts = all.clone().step_by(100);
        starts.map(move |first| (style, first..all.end.min(first + 100)))
    };
    (0..STYLES.len()).flat_map(of_style).collect()
}

/// One list of a style: a van comes, then some of its scenes.
pub fn list(author: &mut Author, scenes: &[Scene]) -> Played {
    if author.dice.one_in(8) {
        unbegun(author)?;
    }
    arrive(author)?;
    for _ in 0..author.dice.between(1, 4) {
        let scene = author.dice.pick(scenes);
        scene(author)?;
    }
    Ok(())
}
