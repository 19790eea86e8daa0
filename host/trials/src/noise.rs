//! Calls to be refused, and calls of any kind.

use crate::author::Author;
use crate::edges::{
    far_times, times, BAD_CURRENTS, BAD_LOWS, BAD_PAUSES, BAD_RATED, CURRENTS, GOOD_LOWS, HIGHS,
    LARGEST, LOWS,
};
use crate::trial::Played;
use crate::windows::{irregular, scattered};
use chuldariin_log::{Call, Window};
use chuldariin_model::{Band, Begin};

impl Author {
    /// A call that every controller refuses.
    pub fn refused(&mut self) -> Call {
        let time = self.edge_time();
        match self.dice.between(0, 10) {
            0 => self.bad_begin(),
            1 => self.any_call(LARGEST + 1),
            2 => self.any_call(u64::MAX),
            3 => self.any_call(self.state().last.wrapping_sub(1)),
            4 => Call::Limit(time, self.dice.pick(&BAD_CURRENTS)),
            5 => self.bad_measure(time),
            6 => Call::Fault(time, self.dice.pick(&[0, 1, 2, 6, 7, 255, 259, u32::MAX])),
            7 => Call::Link(time, self.dice.pick(&BAD_CURRENTS)),
            _ => Call::Sample(time, self.bad_window().into()),
        }
    }

    /// A measure with a current out of range, or more than one.
    fn bad_measure(&mut self, time: u64) -> Call {
        let bad = self.dice.pick(&[200_001, 2_000_000, u32::MAX]);
        if self.dice.one_in(4) {
            return Call::Measure(time, bad);
        }
        let mut lines = [0; 3].map(|_| self.dice.pick(&[0, 32_000, 200_000, bad]));
        lines[self.dice.place(3)] = bad;
        Call::MeasureLines(time, lines)
    }

    /// A window of a wrong length, with a reading out of range, or unsupported.
    pub fn bad_window(&mut self) -> Vec<i32> {
        let length = self.dice.pick(&[256, 256, 256, 257, 1_024]);
        match self.dice.between(0, 3) {
            0 => vec![6_000; self.dice.pick(&[0, 1, 7, 8, 255, 1_025])],
            1 => scattered(&mut self.dice, length),
            2 => self.spoilt(vec![6_000; length]),
            _ => {
                // Two faults at once: the lower number counts.
                let length = self.dice.pick(&[1, 255, 256, 1_025]);
                let readings = scattered(&mut self.dice, length);
                self.spoilt(readings)
            }
        }
    }

    /// Puts a reading out of range somewhere into a window.
    fn spoilt(&mut self, mut readings: Vec<i32>) -> Vec<i32> {
        let bad = [15_001, -15_001, i32::MAX, i32::MIN];
        let places = [0, readings.len() - 1, self.dice.place(readings.len())];
        readings[self.dice.pick(&places)] = self.dice.pick(&bad);
        readings
    }

    /// A begin with one or more bad arguments.
    pub fn bad_begin(&mut self) -> Call {
        let mut begin = Begin {
            time: self.edge_time(),
            rated: 32_000,
            pause: 0,
            ventilation: self.dice.one_in(2),
            digital: self.dice.one_in(2),
        };
        match self.dice.between(0, 4) {
            0 => begin.rated = self.dice.pick(&BAD_RATED),
            1 => begin.pause = self.dice.pick(&BAD_PAUSES),
            2 => begin.time = self.dice.pick(&[LARGEST + 1, u64::MAX]),
            3 => {
                begin.time = LARGEST + 1;
                begin.rated = self.dice.pick(&BAD_RATED);
            }
            _ => {
                begin.rated = self.dice.pick(&BAD_RATED);
                begin.pause = self.dice.pick(&BAD_PAUSES);
            }
        }
        Call::Begin(begin)
    }

    /// A time at a threshold of the present state, now and then a bad one.
    pub fn edge_time(&mut self) -> u64 {
        let last = self.state().last;
        match self.dice.between(0, 255) {
            0 => LARGEST,
            1..=6 => self.dice.pick(&[LARGEST + 1, u64::MAX]),
            7..=14 => self.dice.pick(&[0, last / 2, last.wrapping_sub(1)]),
            15..=17 => self.dice.pick(&far_times(&self.state())),
            18..=127 => self.within(20),
            _ => self.dice.pick(&times(&self.state())),
        }
    }

    /// A call of any kind but begin, with arguments at the ends of their ranges.
    pub fn any_call(&mut self, time: u64) -> Call {
        match self.dice.between(0, 17) {
            0..=6 => Call::Sample(time, self.any_window()),
            7..=8 => Call::Limit(time, self.dice.pick(&CURRENTS)),
            9 => Call::Measure(time, self.any_current()),
            10 => Call::MeasureLines(time, [0; 3].map(|_| self.any_current())),
            11 => Call::Fault(time, self.dice.pick(&[2, 3, 4, 5, 3, 4, 5, 6])),
            12..=13 => Call::Clear(time),
            14..=15 => Call::Link(time, self.dice.pick(&CURRENTS)),
            _ => Call::Tick(time),
        }
    }

    /// Around the present allowance, or any.
    fn any_current(&mut self) -> u32 {
        if self.dice.one_in(2) {
            return self.dice.pick(&CURRENTS);
        }
        let over = self.dice.between(0, 1) as u32;
        self.allowance() + over
    }

    /// Mostly clean windows; also irregular and bad ones.
    pub fn any_window(&mut self) -> Window {
        match self.dice.between(0, 31) {
            0 => self.bad_window().into(),
            1 => irregular(&mut self.dice).into(),
            2..=4 => Window::Halves(self.dice.pick(&LOWS), self.dice.pick(&HIGHS)),
            5..=13 => Window::Halves(self.dice.pick(&HIGHS), self.dice.pick(&LOWS)),
            14..=17 => {
                let high = self.any_level();
                Window::Halves(high, self.dice.pick(&BAD_LOWS).min(high))
            }
            _ => {
                let high = self.any_level();
                Window::Halves(high, self.dice.pick(&GOOD_LOWS))
            }
        }
    }

    /// A level of some band, mostly C.
    fn any_level(&mut self) -> i32 {
        let bands = [Band::C, Band::C, Band::C, Band::B, Band::D, Band::A];
        let band = self.dice.pick(&bands);
        self.level(band)
    }

    /// So many calls of any kind, also begin.
    pub fn anything(&mut self, count: u64) -> Played {
        for _ in 0..count {
            let time = self.edge_time();
            let call = match self.dice.between(0, 63) {
                0 => self.good_begin(time),
                1 => self.bad_begin(),
                _ => self.any_call(time),
            };
            self.say(call)?;
        }
        Ok(())
    }
}
