//! The windows that are timed. The dice are seeded, so they are the same in every run.

use chuldariin_trials::dice::Dice;

const SEED: u64 = 61_851;

/// Ends of the range of a reading, mV.
const LEAST: i32 = -15_000;
const GREATEST: i32 = 15_000;

/// So many readings at one point are one too few for support.
const GROUP: usize = 7;

/// A square wave of 16 readings high and 16 low, with noise of so many mV to either side.
pub fn square(high: i32, low: i32, noise: i32, length: usize) -> Vec<i32> {
    let mut dice = Dice::new(SEED + length as u64);
    (0..length)
        .map(|i| {
            let level = if i / 16 % 2 == 0 { high } else { low };
            level + dice.level(-noise, noise)
        })
        .collect()
}

/// A van that charges: +6 V and -12 V.
pub fn charging(noise: i32, length: usize) -> Vec<i32> {
    square(6_000, -12_000, noise, length)
}

/// Noise all over the range.
pub fn wide(length: usize) -> Vec<i32> {
    let mut dice = Dice::new(SEED + length as u64);
    (0..length).map(|_| dice.level(LEAST, GREATEST)).collect()
}

/// Sixteen supported readings, eight high and eight low. The rest is in groups of seven.
pub fn few(length: usize) -> Vec<i32> {
    let mut readings = groups(length - 2);
    for level in [6_000, -12_000] {
        let nearest = *readings
            .iter()
            .min_by_key(|&r| (r - level).abs())
            .expect("a window has readings");
        readings.push(nearest);
    }
    shuffle(&mut readings);
    readings
}

/// Groups of seven equal readings, too far apart to support one another: no reading is supported,
/// and each is counted against the whole window.
fn groups(length: usize) -> Vec<i32> {
    let points = length.div_ceil(GROUP);
    let apart = (GREATEST - LEAST) / (points as i32 - 1);
    assert!(apart > 200, "the groups would support one another");
    (0..length)
        .map(|i| LEAST + apart * (i / GROUP) as i32)
        .collect()
}

/// The order of the readings in a window without support.
#[derive(Clone, Copy, PartialEq, Eq)]
pub enum Order {
    Ascending,
    Descending,
    /// One of each group, then the next of each group.
    InTurn,
    /// The least, the greatest, the next to least, the next to greatest.
    Zigzag,
    Shuffled,
}

impl Order {
    pub const ALL: [Order; 5] = [
        Order::Ascending,
        Order::Descending,
        Order::InTurn,
        Order::Zigzag,
        Order::Shuffled,
    ];

    pub fn name(self) -> &'static str {
        match self {
            Order::Ascending => "ascending",
            Order::Descending => "descending",
            Order::InTurn => "in turn",
            Order::Zigzag => "zigzag",
            Order::Shuffled => "shuffled",
        }
    }
}

/// A window without any supported reading.
pub fn unsupported(order: Order, length: usize) -> Vec<i32> {
    let mut readings = groups(length);
    match order {
        Order::Ascending => {}
        Order::Descending => readings.reverse(),
        Order::InTurn => readings = in_turn(&readings),
        Order::Zigzag => readings = zigzag(&readings),
        Order::Shuffled => shuffle(&mut readings),
    }
    readings
}

fn in_turn(sorted: &[i32]) -> Vec<i32> {
    (0..GROUP)
        .flat_map(|first| sorted.iter().skip(first).step_by(GROUP))
        .copied()
        .collect()
}

fn zigzag(sorted: &[i32]) -> Vec<i32> {
    let last = sorted.len() - 1;
    (0..sorted.len())
        .map(|i| {
            if i % 2 == 0 {
                sorted[i / 2]
            } else {
                sorted[last - i / 2]
            }
        })
        .collect()
}

fn shuffle(readings: &mut [i32]) {
    let mut dice = Dice::new(SEED);
    for last in (1..readings.len()).rev() {
        let other = dice.place(last + 1);
        readings.swap(last, other);
    }
}
