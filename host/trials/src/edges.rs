//! Levels, numbers and times at the ends of their ranges.

use chuldariin_model::{Band, State};

/// The largest time, ms.
pub const LARGEST: u64 = 1_000_000_000_000;

/// High levels at the ends of bands and of what is sound, mV.
pub const HIGHS: [i32; 38] = [
    -1_001, -1_000, -999, 0, 1_000, 1_001, 1_499, 1_500, 1_501, 1_999, 2_000, 2_001, 3_000, 4_000,
    4_001, 4_500, 4_999, 5_000, 5_001, 6_000, 6_999, 7_000, 7_001, 7_200, 7_499, 7_500, 7_501,
    7_999, 8_000, 9_000, 10_000, 10_001, 10_999, 11_000, 12_000, 13_000, 13_001, 15_000,
];

/// Low levels at the ends of the low band, mV.
pub const LOWS: [i32; 12] = [
    -15_000, -13_001, -13_000, -12_999, -12_000, -11_001, -11_000, -10_999, -10_000, -1_000, 0,
    3_000,
];

/// Low levels in the low band, mV.
pub const GOOD_LOWS: [i32; 5] = [-13_000, -12_500, -12_000, -11_500, -11_000];

/// Low levels just or far outside it, mV.
pub const BAD_LOWS: [i32; 5] = [-13_001, -10_999, -9_000, 0, 1_000];

/// Currents around the ends of the duty formulas, mA.
pub const CURRENTS: [u32; 20] = [
    0, 1, 5_999, 6_000, 6_001, 6_059, 6_060, 16_000, 31_980, 32_000, 50_999, 51_000, 51_001,
    52_000, 52_749, 52_750, 79_999, 80_000, 80_001, 200_000,
];

/// Limits with which a wave can be driven, and grants with which a digital post closes, mA.
pub const GOOD_CURRENTS: [u32; 9] = [
    6_000, 6_060, 16_000, 32_000, 51_000, 52_000, 52_749, 52_750, 80_000,
];

/// Limits and grants with which it can't, mA.
pub const LOW_CURRENTS: [u32; 4] = [0, 1, 3_000, 5_999];

/// Limits and grants out of range, mA.
pub const BAD_CURRENTS: [u32; 3] = [80_001, 200_000, u32::MAX];

/// Rated currents and pauses that begin takes.
pub const GOOD_RATED: [u32; 7] = [6_000, 6_001, 16_000, 32_000, 51_500, 63_000, 80_000];
pub const GOOD_PAUSES: [u64; 7] = [0, 0, 1_000, 1_001, 3_000, 59_999, 60_000];

/// And those that it does not take.
pub const BAD_RATED: [u32; 5] = [0, 1, 5_999, 80_001, u32::MAX];
pub const BAD_PAUSES: [u64; 6] = [1, 2, 999, 60_001, 3_000_000_000, u64::MAX];

/// Ends of a band, mV.
pub fn ends(band: Band) -> (i32, i32) {
    match band {
        Band::A => (11_000, 13_000),
        Band::B => (8_000, 10_000),
        Band::C => (5_000, 7_000),
        Band::D => (2_000, 4_000),
        Band::E => (-1_000, 1_000),
    }
}

/// Times at and around each threshold of this state that are still to come.
pub fn times(state: &State) -> Vec<u64> {
    let pause = state.pause;
    let ages: [(Option<u64>, [u64; 3]); 5] = [
        (Some(state.last), [0, 1, 10]),
        (state.sound, [79, 80, 81]),
        (state.stop, [2_999, 3_000, 3_001]),
        (state.overrun, [4_999, 5_000, 5_001]),
        (
            state.opening,
            [pause.saturating_sub(1), pause, pause.saturating_add(1)],
        ),
    ];
    let mut times = Vec::new();
    for (start, ages) in ages {
        if let Some(start) = start {
            times.extend(ages.map(|age| start.saturating_add(age)));
        }
    }
    times.retain(|&time| time >= state.last);
    times
}

/// Times so late that the low 32 bits of an age say nothing of it.
pub fn far_times(state: &State) -> Vec<u64> {
    let stored = [
        Some(state.last),
        state.sound,
        state.opening,
        state.overrun,
        state.stop,
    ];
    let stored = stored.into_iter().flatten();
    let mut times: Vec<u64> = stored.map(|time| time.saturating_add(1 << 32)).collect();
    times.retain(|&time| time >= state.last);
    times
}
