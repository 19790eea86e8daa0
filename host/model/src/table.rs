//! The table of refusals. Numbers 9 and 10 are in `duty`.

use crate::duty::{plain_duty, DIGITAL_DUTY};
use crate::state::{Event, State};
use crate::window::{levels, Evaluated};

/// The largest time, ms.
const LARGEST_TIME: u64 = 1_000_000_000_000;
/// The largest limit, the largest grant and the largest measured current of a line, mA.
const LARGEST_LIMIT: u32 = 80_000;
const LARGEST_GRANT: u32 = 80_000;
const LARGEST_MEASURE: u32 = 200_000;
/// No list of calls leads above so many closings.
const MOST_CLOSINGS: u32 = 1_000_000_001;

/// Number the table has for a begin, 0 if it has none.
pub fn refusal_of_begin(time: u64, rated: u32, pause: u64) -> u8 {
    if time > LARGEST_TIME {
        3
    } else if !rated_in_range(rated) || !(pause == 0 || pause_in_range(pause)) {
        1
    } else {
        0
    }
}

/// Number the table has for any other call, 0 if it has none.
pub fn refusal_of_call(state: &State, time: u64, event: &Event) -> u8 {
    match check(state, levels, time, event) {
        Ok(_) => 0,
        Err(refusal) => refusal,
    }
}

/// Goes through the table in its order: 3, 2, 1, then 4 to 8 with 13 of a limit call in
/// the place of 7, or 12 and 11 of a link call. An accepted sample gets its high and low
/// level.
pub(crate) fn check(
    state: &State,
    evaluate: impl FnOnce(&[i32]) -> Evaluated,
    time: u64,
    event: &Event,
) -> Result<Option<(i32, i32)>, u8> {
    if time > LARGEST_TIME {
        return Err(3);
    }
    if time < state.last {
        return Err(2);
    }
    if out_of_range(state) {
        return Err(1);
    }
    match *event {
        Event::Sample(window) => evaluate(window).map(Some),
        Event::Limit(limit) if limit > LARGEST_LIMIT => Err(13),
        Event::Measure(lines) if lines.iter().any(|&line| line > LARGEST_MEASURE) => Err(7),
        Event::Fault(kind) if !(3..=5).contains(&kind) => Err(8),
        Event::Link(_) if !state.digital => Err(12),
        Event::Link(granted) if granted > LARGEST_GRANT => Err(11),
        _ => Ok(None),
    }
}

/// Has a host altered the controller in a way that refusal 1 names?
fn out_of_range(state: &State) -> bool {
    !wave_in_range(state.digital, state.wave)
        || state.limit > LARGEST_LIMIT
        || state.grant > LARGEST_GRANT
        || !rated_in_range(state.rated)
        || !pause_in_range(state.pause)
        || later(state.sound, state.last)
        || later(state.opening, state.last)
        || later(state.overrun, state.last)
        || later(state.stop, state.last)
        || state.closings > MOST_CLOSINGS
}

/// 0, 1000, and what such a post drives.
fn wave_in_range(digital: bool, wave: u32) -> bool {
    let drives = if digital {
        wave == DIGITAL_DUTY
    } else {
        plain_duty(wave)
    };
    wave == 0 || drives || wave == 1_000
}

fn rated_in_range(rated: u32) -> bool {
    (6_000..=80_000).contains(&rated)
}

/// Range of a pause as it is stored.
fn pause_in_range(pause: u64) -> bool {
    (1_000..=60_000).contains(&pause)
}

/// Is a stored time there, and above the last accepted one?
fn later(stored: Option<u64>, last: u64) -> bool {
    match stored {
        Some(time) => time > last,
        None => false,
    }
}
