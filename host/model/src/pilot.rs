//! Bands of the high level, and the verdict on a sample.

/// Band of a high level. `None` in an `Option<Band>` is no band.
#[derive(Clone, Copy, Debug, PartialEq, Eq)]
pub enum Band {
    A,
    B,
    C,
    D,
    E,
}

/// What a sample shows, under the wave commanded before its call.
#[derive(Clone, Copy, Debug, PartialEq, Eq)]
pub struct Verdict {
    pub band: Option<Band>,
    pub sound: bool,
    pub proven: bool,
    pub diode_bad: bool,
}

/// Band of a high level in mV. Both ends are in.
pub fn band(high: i32) -> Option<Band> {
    match high {
        11_000..=13_000 => Some(Band::A),
        8_000..=10_000 => Some(Band::B),
        5_000..=7_000 => Some(Band::C),
        2_000..=4_000 => Some(Band::D),
        -1_000..=1_000 => Some(Band::E),
        _ => None,
    }
}

/// Is a low level in the low band?
pub fn in_low_band(low: i32) -> bool {
    (-13_000..=-11_000).contains(&low)
}

/// Is a van ready in this band?
fn ready(band: Option<Band>, ventilation: bool) -> bool {
    match band {
        Some(Band::C) => true,
        Some(Band::D) => ventilation,
        _ => false,
    }
}

/// Verdict on a sample of these two levels, with the wave driven or not.
pub fn verdict(high: i32, low: i32, driven: bool, ventilation: bool) -> Verdict {
    let band = band(high);
    let low_good = in_low_band(low);
    let van_there = matches!(band, Some(Band::B | Band::C | Band::D));
    Verdict {
        band,
        sound: high > 1_500 && high < 7_500 && (!driven || low_good),
        proven: driven && ready(band, ventilation) && low_good,
        diode_bad: driven && van_there && !low_good,
    }
}

/// Are two samples in one and the same band?
pub(crate) fn same_band(one: Option<Verdict>, other: Option<Verdict>) -> bool {
    match (one, other) {
        (Some(one), Some(other)) => one.band.is_some() && one.band == other.band,
        _ => false,
    }
}
