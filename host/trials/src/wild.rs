//! Controllers that a host has altered.

use crate::dice::Dice;
use crate::edges::{BAD_PAUSES, BAD_RATED, LARGEST};
use chuldariin::raw;
use chuldariin::raw::Controller;

/// Settled states and bands: letters, and bytes that are none.
pub const BYTES: [u8; 14] = [
    b'A', b'B', b'C', b'D', b'E', 0, 1, 7, b'@', b'F', b'U', b'a', b'c', 255,
];

/// Ages of stored times, at the ends of their rules, ms.
pub const AGES: [u64; 18] = [
    0, 1, 79, 80, 81, 999, 1_000, 2_999, 3_000, 3_001, 4_999, 5_000, 5_001, 9_999, 10_000, 59_999,
    60_000, 90_000,
];

/// Closings around their end.
pub const CLOSINGS: [u32; 7] = [
    0,
    1,
    1_000_000_000,
    1_000_000_001,
    1_000_000_002,
    u32::MAX - 1,
    u32::MAX,
];

/// A controller of any content, so that most calls on it are accepted.
pub fn wild(dice: &mut Dice) -> raw::Controller {
    let last = wild_last(dice);
    let mut c = Controller::ZEROED;
    c.settings = wild_settings(dice);
    c.limit = wild_current(dice);
    c.grant = wild_current(dice);
    c.wave = wild_wave(dice, c.settings.digital);
    c.closed = dice.one_in(2);
    c.settled = wild_byte(dice);
    c.faults = wild_faults(dice);
    c.last = last;
    let young = dice.one_in(2);
    c.sound = wild_moment(dice, last, if young { &AGES[..5] } else { &AGES });
    c.opening = wild_moment(dice, last, &AGES);
    c.overrun = wild_moment(dice, last, &AGES);
    c.stop = wild_moment(dice, last, &AGES);
    c.previous = wild_previous(dice);
    c.lines = wild_lines(dice);
    c.closings = seldom(dice, &CLOSINGS, &[0, 1, 1_000_000_000, 1_000_000_001]);
    c
}

/// Mostly one of the usual ones.
fn seldom<T: Copy>(dice: &mut Dice, rare: &[T], usual: &[T]) -> T {
    if dice.one_in(40) {
        dice.pick(rare)
    } else {
        dice.pick(usual)
    }
}

fn wild_last(dice: &mut Dice) -> u64 {
    let rare = [
        0,
        1,
        LARGEST - 1,
        LARGEST,
        LARGEST + 1,
        u64::MAX - 1,
        u64::MAX,
    ];
    if dice.one_in(16) {
        dice.pick(&rare)
    } else {
        dice.pick(&[70_000, 100_000, LARGEST / 2])
    }
}

fn wild_settings(dice: &mut Dice) -> raw::Settings {
    raw::Settings {
        rated: seldom(dice, &BAD_RATED, &[6_000, 32_000, 52_000, 80_000]),
        pause: match dice.one_in(40) {
            true => dice.pick(&[0, BAD_PAUSES[2], BAD_PAUSES[3], u64::MAX]),
            false => dice.pick(&[1_000, 3_000, 10_000, 60_000]),
        },
        ventilation: dice.one_in(2),
        digital: dice.one_in(2),
    }
}

/// A limit or a grant, mA.
fn wild_current(dice: &mut Dice) -> u32 {
    let rare = [80_001, u32::MAX];
    seldom(dice, &rare, &[0, 5_999, 6_000, 32_000, 80_000])
}

/// A wave of such a post; the rare ones are a post's of the other mark, or none's.
fn wild_wave(dice: &mut Dice, digital: bool) -> u32 {
    let (own, other): (&[u32], &[u32]) = match digital {
        true => (&[0, 50, 1_000], &[100, 533, 960]),
        false => (&[0, 100, 533, 960, 1_000], &[50]),
    };
    let neither = [1, 49, 51, 99, 961, 999, 1_001, u32::MAX];
    let rare = [dice.pick(other), dice.pick(&neither)];
    seldom(dice, &rare, own)
}

/// Half of them C or D.
fn wild_byte(dice: &mut Dice) -> u8 {
    if dice.one_in(2) {
        dice.pick(b"CD")
    } else {
        dice.pick(&BYTES)
    }
}

/// None in two of three cases, else some in an order, or at any places.
fn wild_faults(dice: &mut Dice) -> raw::Faults {
    match dice.between(0, 5) {
        0 => faults(any_order(dice)),
        1 => faults(any_places(dice)),
        _ => faults([0; 5]),
    }
}

/// The places of some faults in any order.
fn any_order(dice: &mut Dice) -> [u8; 5] {
    let mut places = [1, 2, 3, 4, 5];
    dice.shuffle(&mut places);
    let latched = dice.between(0, 5) as u8;
    places.map(|place| if place <= latched { place } else { 0 })
}

/// Places that are mostly those of no order: equal ones, a gap, none that is the first.
pub fn any_places(dice: &mut Dice) -> [u8; 5] {
    let any = dice.roll() as u8;
    [0; 5].map(|_| dice.pick(&[0, 0, 1, 1, 2, 3, 4, 5, 6, 7, 255, any]))
}

/// The faults at these places, fault 1 in front.
pub fn faults(places: [u8; 5]) -> raw::Faults {
    let [diode, overcurrent, residual, welded, temperature] = places;
    raw::Faults {
        diode,
        overcurrent,
        residual,
        welded,
        temperature,
    }
}

/// Set or not, of one of these ages at the last call, seldom after it.
fn wild_moment(dice: &mut Dice, last: u64, ages: &[u64]) -> raw::Moment {
    let set = !dice.one_in(3);
    let before = last.saturating_sub(dice.pick(ages));
    let after = [last.saturating_add(1), u64::MAX];
    let time = match dice.between(0, 99) {
        0 => dice.pick(&after),
        _ if set => before,
        _ => dice.pick(&[0, before, after[0], after[1]]),
    };
    raw::Moment { set, time }
}

/// In every second controller they may be above what a measure can bring.
fn wild_lines(dice: &mut Dice) -> raw::Lines {
    let above = dice.one_in(2);
    let mut line = || match above {
        true => dice.pick(&[0, 200_000, 200_001, u32::MAX]),
        false => dice.pick(&[0, 1, 32_000, 200_000]),
    };
    raw::Lines {
        line1: line(),
        line2: line(),
        line3: line(),
    }
}

fn wild_previous(dice: &mut Dice) -> raw::Previous {
    raw::Previous {
        kept: !dice.one_in(4),
        verdict: verdict(dice.between(0, 7), wild_byte(dice)),
    }
}

/// A verdict of any three bits, which may contradict each other.
pub fn verdict(bits: u64, band: u8) -> raw::Verdict {
    raw::Verdict {
        band,
        sound: bits & 1 != 0,
        proven: bits & 2 != 0,
        diodebad: bits & 4 != 0,
    }
}
