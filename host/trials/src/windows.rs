//! Windows of readings, clean and irregular.

use crate::dice::Dice;
use crate::edges::{GOOD_LOWS, HIGHS};

/// How far a supporter may lie from a reading, mV.
const NEAR: i32 = 200;
/// One supporter less than enough.
const TOO_FEW: usize = 7;

/// A length at an end of its range; mostly 256, as long windows take long.
pub fn length(dice: &mut Dice) -> usize {
    match dice.between(0, 39) {
        0 => 1_024,
        1 => 1_023,
        2..=5 => 257,
        _ => 256,
    }
}

/// A window of an allowed length that is no clean square wave.
pub fn irregular(dice: &mut Dice) -> Vec<i32> {
    let length = length(dice);
    match dice.between(0, 9) {
        0..=3 => peaks(dice, length),
        4..=5 => clusters(dice, length),
        6 => noisy(dice, length),
        7 => scattered(dice, length),
        8 => barely(dice, length),
        _ => ramp(dice, length),
    }
}

/// A square wave with 6 to 9 readings above it, or below it, or both.
pub fn peaks(dice: &mut Dice, length: usize) -> Vec<i32> {
    let low = dice.pick(&GOOD_LOWS);
    let mut readings = vec![dice.pick(&HIGHS); length];
    readings[length / 2..].fill(low);
    let above = dice.pick(&HIGHS);
    let below = low - dice.pick(&[0, NEAR, NEAR + 1, 1_000, 1_001]);
    let (up, down) = (dice.one_in(2), dice.one_in(3));
    if up {
        strew(dice, &mut readings[..length / 2], above, -1);
    }
    if down {
        strew(dice, &mut readings[length / 2..], below, 1);
    }
    shuffle_some(dice, &mut readings);
    readings
}

/// Puts 6 to 9 readings at a level, or just at or beyond a supporter's distance
/// from it, to the given side.
fn strew(dice: &mut Dice, readings: &mut [i32], level: i32, side: i32) {
    let count = dice.between(6, 9) as usize;
    let far = dice.pick(&[0, 1, NEAR - 1, NEAR, NEAR, NEAR + 1]);
    let at_level = dice.between(1, count as u64) as usize;
    for (place, reading) in readings.iter_mut().take(count).enumerate() {
        let away = if place < at_level { 0 } else { far };
        *reading = in_range(level + side * away);
    }
}

/// Groups of 1 to 9 equal readings, a supporter's distance or so apart.
pub fn clusters(dice: &mut Dice, length: usize) -> Vec<i32> {
    let mut readings = Vec::with_capacity(length);
    let mut level = dice.level(-15_000, -11_000);
    while readings.len() < length {
        let count = dice.between(1, 9) as usize;
        let count = count.min(length - readings.len());
        readings.extend(std::iter::repeat_n(level, count));
        let apart = dice.pick(&[NEAR - 1, NEAR, NEAR + 1, NEAR + 1, 2 * NEAR, 3 * NEAR]);
        level += apart;
        if level > 15_000 {
            level = -15_000 + dice.level(0, NEAR);
        }
    }
    shuffle_some(dice, &mut readings);
    readings
}

/// A square wave with jitter, and a few spikes.
pub fn noisy(dice: &mut Dice, length: usize) -> Vec<i32> {
    let (high, low) = (dice.pick(&HIGHS), dice.pick(&GOOD_LOWS));
    let width = dice.pick(&[1, 50, 100, 300, 3_000]);
    let mut readings = Vec::with_capacity(length);
    for place in 0..length {
        let level = if place < length / 2 { high } else { low };
        readings.push(in_range(level + dice.level(-width, width)));
    }
    for _ in 0..dice.between(0, 9) {
        let place = dice.place(length);
        readings[place] = dice.level(-15_000, 15_000);
    }
    readings
}

/// Groups of 7 equal readings, all too far apart: no reading is supported.
pub fn scattered(dice: &mut Dice, length: usize) -> Vec<i32> {
    let start = -15_000 + dice.level(0, 300);
    let mut readings: Vec<i32> = (0..length)
        .map(|place| start + (place / TOO_FEW) as i32 * (NEAR + 1))
        .collect();
    shuffle_some(dice, &mut readings);
    readings
}

/// As [`scattered`], but one group lies a little nearer to the next, or has one
/// reading more. So few readings are supported, or none.
pub fn barely(dice: &mut Dice, length: usize) -> Vec<i32> {
    let mut readings = scattered(dice, length);
    let moved = dice.place(length);
    let other = readings[dice.place(length)];
    let away = dice.pick(&[-NEAR - 1, -NEAR, -1, 0, 1, NEAR, NEAR + 1]);
    readings[moved] = in_range(other + away);
    readings
}

/// Even steps. Up to 28 mV the first and the last reading have 8 supporters, up
/// to 50 mV only readings further in have them, and from 51 mV none has.
pub fn ramp(dice: &mut Dice, length: usize) -> Vec<i32> {
    let step = dice.pick(&[28, 29, 40, 41, 49, 50, 51]);
    let start = dice.level(-15_000, -11_000);
    let readings = (0..length).map(|place| start + (place as i32 * step) % 29_000);
    readings.map(in_range).collect()
}

fn in_range(reading: i32) -> i32 {
    reading.clamp(-15_000, 15_000)
}

/// Half of the windows come in disorder.
fn shuffle_some(dice: &mut Dice, readings: &mut [i32]) {
    if dice.one_in(2) {
        dice.shuffle(readings);
    }
}
