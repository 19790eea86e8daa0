//! Makes up calls by what the controller is doing.

use crate::dice::Dice;
use crate::edges::{ends, BAD_LOWS, GOOD_CURRENTS, GOOD_LOWS, GOOD_PAUSES, GOOD_RATED, LARGEST};
use crate::tally::Tally;
use crate::trial::{Played, Trial};
use chuldariin::raw;
use chuldariin::raw::Controller;
use chuldariin_log::{Call, Window};
use chuldariin_model::{driven, Band, Begin, State, LEAST_CURRENT};

/// A part of a list.
pub type Scene = fn(&mut Author) -> Played;

/// Writes one list of calls.
pub struct Author {
    pub dice: Dice,
    pub trial: Trial,
}

/// Writes a list from a controller of zeros. After a difference the report of it.
pub fn write(
    name: &str,
    seed: u64,
    tally: &mut Tally,
    list: impl Fn(&mut Author) -> Played,
) -> Result<(), String> {
    write_from(Controller::ZEROED, name, seed, tally, list)
}

/// Writes a list from any controller.
pub fn write_from(
    start: raw::Controller,
    name: &str,
    seed: u64,
    tally: &mut Tally,
    list: impl Fn(&mut Author) -> Played,
) -> Result<(), String> {
    let mut author = Author {
        dice: Dice::new(seed),
        trial: Trial::from(start),
    };
    let played = list(&mut author);
    tally.add(&author.trial.tally);
    match played {
        Ok(()) => Ok(()),
        Err(_) => Err(author.trial.report(&format!("{name}, seed {seed}"))),
    }
}

impl Author {
    pub fn state(&self) -> State {
        self.trial.state()
    }

    /// Runs a call; now and then one that changes nothing goes before it.
    pub fn say(&mut self, call: Call) -> Played {
        if self.dice.one_in(24) {
            let refused = self.refused();
            self.trial.run(refused)?;
        }
        if self.dice.one_in(24) {
            self.trial.run(Call::Tick(self.state().last))?;
        }
        self.trial.run(call)
    }

    /// The time of the next call of a board that calls often.
    pub fn soon(&mut self) -> u64 {
        let step = self.dice.between(10, 20);
        self.state().last.saturating_add(step)
    }

    /// A time at most so many ms after the last call.
    pub fn within(&mut self, most: u64) -> u64 {
        let step = self.dice.between(0, most);
        self.state().last.saturating_add(step)
    }

    /// A time at which a list may start.
    pub fn start(&mut self) -> u64 {
        match self.dice.between(0, 15) {
            0..=4 => 0,
            5 => LARGEST - self.dice.between(0, 20_000),
            6..=8 => self.dice.between(0, LARGEST - 1_000_000),
            _ => self.dice.between(0, 100_000),
        }
    }

    /// A begin that is accepted if its time is, of a digital post or of a plain one.
    pub fn good_begin(&mut self, time: u64) -> Call {
        let digital = self.dice.one_in(2);
        self.begin_marked(time, digital)
    }

    /// The same with this mark.
    pub fn begin_marked(&mut self, time: u64, digital: bool) -> Call {
        let any_rated = self.dice.between(6_000, 80_000) as u32;
        let any_pause = self.dice.between(1_000, 60_000);
        Call::Begin(Begin {
            time,
            rated: self.dice.often(&GOOD_RATED, any_rated),
            pause: self.dice.often(&GOOD_PAUSES, any_pause),
            ventilation: self.dice.one_in(2),
            digital,
        })
    }

    /// A level of a band, often one of its ends.
    pub fn level(&mut self, band: Band) -> i32 {
        let (low, high) = ends(band);
        match self.dice.between(0, 5) {
            0 => low,
            1 => high,
            2 => self.dice.level(low, high),
            _ => (low + high) / 2,
        }
    }

    /// A band in which a van is ready at this post.
    pub fn ready_band(&mut self) -> Band {
        if self.state().ventilation && self.dice.one_in(2) {
            Band::D
        } else {
            Band::C
        }
    }

    /// A sample of these two levels.
    pub fn sample(&mut self, time: u64, high: i32, low: i32) -> Played {
        self.say(Call::Sample(time, Window::Halves(high, low)))
    }

    /// A sample as a van in this band makes it under the present wave.
    pub fn van_at(&mut self, time: u64, band: Band) -> Played {
        let (state, high) = (self.state(), self.level(band));
        let low = match state.wave {
            wave if driven(state.digital, wave) => self.dice.pick(&GOOD_LOWS),
            0 => -12_000,
            _ => high,
        };
        self.sample(time, high.max(low), low)
    }

    pub fn van(&mut self, band: Band) -> Played {
        let time = self.soon();
        self.van_at(time, band)
    }

    /// A sample with this band's high level and no diode.
    pub fn no_diode_at(&mut self, time: u64, band: Band) -> Played {
        let (high, low) = (self.level(band), self.dice.pick(&BAD_LOWS));
        self.sample(time, high, low.min(high))
    }

    /// One of these limits.
    pub fn limit(&mut self, time: u64, of: &[u32]) -> Played {
        let limit = self.dice.pick(of);
        self.say(Call::Limit(time, limit))
    }

    /// A limit that lets a wave be driven.
    pub fn good_limit(&mut self) -> Played {
        let (time, limit) = (self.soon(), self.good_current());
        self.say(Call::Limit(time, limit))
    }

    /// One of these grants.
    pub fn grant(&mut self, time: u64, of: &[u32]) -> Played {
        let granted = self.dice.pick(of);
        self.say(Call::Link(time, granted))
    }

    /// A grant that is enough, if the post wants one and A, under which it is lost, is not settled.
    pub fn agree(&mut self) -> Played {
        let state = self.state();
        let wants = state.digital && state.grant < LEAST_CURRENT;
        if !wants || state.settled == Some(Band::A) {
            return Ok(());
        }
        let (time, granted) = (self.within(3), self.good_current());
        self.say(Call::Link(time, granted))
    }

    /// A limit, or a grant, that is enough.
    fn good_current(&mut self) -> u32 {
        let any = self.dice.between(6_000, 80_000) as u32;
        self.dice.often(&GOOD_CURRENTS, any)
    }

    /// A measure with this as its largest current: the only one, or on any line.
    pub fn measure(&mut self, time: u64, largest: u32) -> Played {
        if self.dice.one_in(3) {
            return self.say(Call::Measure(time, largest));
        }
        let any = self.dice.between(0, largest.into()) as u32;
        let mut lines = [0; 3].map(|_| self.dice.pick(&[0, any, largest]));
        lines[self.dice.place(3)] = largest;
        self.say(Call::MeasureLines(time, lines))
    }

    /// One of the faults that the board finds.
    pub fn fault(&mut self, time: u64) -> Played {
        let kind = self.dice.pick(&[3, 4, 5]);
        self.say(Call::Fault(time, kind))
    }

    /// Sound samples until just before a time at most 5 s away, far enough apart
    /// for the 80 ms to matter.
    pub fn hold_until(&mut self, until: u64, band: Band) -> Played {
        for _ in 0..72 {
            let time = self.state().last + self.dice.between(70, 80);
            if self.state().closed && time.saturating_add(10) < until {
                self.van_at(time, band)?;
            }
        }
        let near = until.saturating_sub(self.dice.between(1, 9));
        if self.state().closed && near >= self.state().last {
            self.van_at(near, band)?;
        }
        Ok(())
    }
}
