//! Window to levels.

/// Fewest and most readings of a window.
pub const SHORTEST: usize = 256;
pub const LONGEST: usize = 1_024;

/// A reading is in range from minus this to plus this, in mV.
pub const READING_END: i32 = 15_000;

/// How far a supporter may lie from the reading it supports, in mV.
pub const NEAR: i32 = 200;

/// So many supporters, itself among them, make a reading supported.
pub const ENOUGH: usize = 8;

/// High and low level of a window, or refusal 4, 5 or 6.
pub type Evaluated = Result<(i32, i32), u8>;

/// The levels of a window.
pub fn levels(window: &[i32]) -> Evaluated {
    if window.len() < SHORTEST || window.len() > LONGEST {
        return Err(4);
    }
    for &reading in window {
        if !(-READING_END..=READING_END).contains(&reading) {
            return Err(5);
        }
    }
    let mut found: Option<(i32, i32)> = None;
    for &reading in window {
        if supporters(window, reading) >= ENOUGH {
            found = match found {
                None => Some((reading, reading)),
                Some((high, low)) => Some((high.max(reading), low.min(reading))),
            };
        }
    }
    found.ok_or(6)
}

/// Counts every supporter of a reading. The readings are in range.
fn supporters(window: &[i32], reading: i32) -> usize {
    let mut count = 0;
    for &other in window {
        if (other - reading).abs() <= NEAR {
            count += 1;
        }
    }
    count
}
