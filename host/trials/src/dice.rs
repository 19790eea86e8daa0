//! A seeded pseudo-random generator: splitmix64.

/// Same seed, same rolls.
#[derive(Clone, Debug)]
pub struct Dice(u64);

impl Dice {
    pub fn new(seed: u64) -> Dice {
        Dice(seed)
    }

    pub fn roll(&mut self) -> u64 {
        self.0 = self.0.wrapping_add(0x9e37_79b9_7f4a_7c15);
        let mut mixed = self.0;
        mixed = (mixed ^ (mixed >> 30)).wrapping_mul(0xbf58_476d_1ce4_e5b9);
        mixed = (mixed ^ (mixed >> 27)).wrapping_mul(0x94d0_49bb_1331_11eb);
        mixed ^ (mixed >> 31)
    }

    /// A number from `low` to `high`, both ends in.
    pub fn between(&mut self, low: u64, high: u64) -> u64 {
        low + self.roll() % (high - low + 1)
    }

    /// A level from `low` to `high`, both ends in.
    pub fn level(&mut self, low: i32, high: i32) -> i32 {
        low + self.between(0, (high - low) as u64) as i32
    }

    /// A place below `length`.
    pub fn place(&mut self, length: usize) -> usize {
        (self.roll() % length as u64) as usize
    }

    /// True once in so many rolls.
    pub fn one_in(&mut self, rolls: u64) -> bool {
        self.roll().is_multiple_of(rolls)
    }

    pub fn pick<T: Copy>(&mut self, of: &[T]) -> T {
        of[self.place(of.len())]
    }

    /// Mostly one of these, now and then another.
    pub fn often<T: Copy>(&mut self, of: &[T], other: T) -> T {
        if self.one_in(4) {
            other
        } else {
            self.pick(of)
        }
    }

    pub fn shuffle<T>(&mut self, items: &mut [T]) {
        for last in (1..items.len()).rev() {
            let other = self.place(last + 1);
            items.swap(last, other);
        }
    }
}
