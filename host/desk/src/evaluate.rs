//! Window to levels by sorting, and duties that are looked up again: the model's ways are obvious, and too slow for a
//! million calls.

use chuldariin_model::{duty_for, Evaluated, ENOUGH, LONGEST, NEAR, READING_END, SHORTEST};
use std::cell::Cell;

thread_local! {
    /// The last current that a duty was asked for, and the model's answer.
    static LAST: Cell<(u32, Result<u32, u8>)> = Cell::new((0, duty_for(0)));
}

/// The model's duty for a current. A log asks for the same one again and again, so its last answer is kept.
pub fn remembered(available: u32) -> Result<u32, u8> {
    LAST.with(|last| {
        if last.get().0 != available {
            last.set((available, duty_for(available)));
        }
        last.get().1
    })
}

/// High and low level, or refusal 4, 5 or 6.
pub fn evaluate(readings: &[i32]) -> Evaluated {
    if !(SHORTEST..=LONGEST).contains(&readings.len()) {
        return Err(4);
    }
    if !readings.iter().all(|&reading| in_range(reading)) {
        return Err(5);
    }
    let mut sorted = readings.to_vec();
    sorted.sort_unstable();
    let supported = |reading: &&i32| {
        let below = sorted.partition_point(|other| *other < **reading - NEAR);
        let within = sorted.partition_point(|other| *other <= **reading + NEAR);
        within - below >= ENOUGH
    };
    match (
        sorted.iter().rev().find(supported),
        sorted.iter().find(supported),
    ) {
        (Some(&high), Some(&low)) => Ok((high, low)),
        _ => Err(6),
    }
}

pub fn in_range(reading: i32) -> bool {
    (-READING_END..=READING_END).contains(&reading)
}
