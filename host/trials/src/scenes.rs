//! What happens at a charging post.

use crate::author::{Author, Scene};
use crate::edges::{CURRENTS, GOOD_CURRENTS, GOOD_LOWS, LOW_CURRENTS};
use crate::trial::Played;
use chuldariin_log::Call;
use chuldariin_model::{Band, LEAST_CURRENT};

/// Begin, and the van comes: A or nothing, then B.
pub fn arrive(author: &mut Author) -> Played {
    let time = author.start();
    let begin = author.good_begin(time);
    author.say(begin)?;
    author.good_limit()?;
    for _ in 0..author.dice.between(0, 3) {
        author.van(Band::A)?;
    }
    for _ in 0..author.dice.between(0, 3) {
        author.van(Band::B)?;
    }
    Ok(())
}

/// All that a closing needs, with the end of the pause met to the millisecond.
pub fn close(author: &mut Author) -> Played {
    ready(author, Author::agree)
}

/// All that a plain post needs to close. A link call, or none, goes before it and follows its first samples.
pub fn ready(author: &mut Author, link: Scene) -> Played {
    if author.state().any_fault() {
        let time = author.soon();
        author.say(Call::Clear(time))?;
    }
    let state = author.state();
    if state.rated.min(state.limit) < LEAST_CURRENT {
        author.good_limit()?;
    }
    link(author)?;
    let band = author.ready_band();
    for _ in 0..4 {
        if !author.state().closed {
            author.van(band)?;
            link(author)?;
        }
    }
    match author.state().opening {
        Some(opening) if !author.state().closed => {
            let end = opening.saturating_add(author.state().pause);
            around_pause(author, end, band)
        }
        _ => Ok(()),
    }
}

/// Proven samples before, 1 ms before and at the end of the pause.
fn around_pause(author: &mut Author, end: u64, band: Band) -> Played {
    let early = author.dice.between(2, 12);
    for before in [early, 1, 0] {
        let time = end.saturating_sub(before);
        if time >= author.state().last {
            author.van_at(time, band)?;
        }
    }
    author.van(band)
}

/// Charging: samples every 10 to 20 ms, with limits, grants and measures between.
pub fn charge(author: &mut Author) -> Played {
    close(author)?;
    let band = author.ready_band();
    for _ in 0..author.dice.between(5, 30) {
        author.van(band)?;
        let time = author.state().last;
        match author.dice.between(0, 11) {
            0 => author.good_limit()?,
            1 => author.measure(time, 32_000)?,
            2 => author.say(Call::Tick(time + 1))?,
            3 => author.say(Call::Clear(time))?,
            4 => author.grant(time, &GOOD_CURRENTS)?,
            _ => {}
        }
    }
    Ok(())
}

/// The van stops, and is unplugged.
pub fn leave(author: &mut Author) -> Played {
    for band in [Band::B, Band::A] {
        for _ in 0..author.dice.between(1, 3) {
            author.van(band)?;
        }
    }
    Ok(())
}

/// Two unsound samples, with other calls between them or not.
pub fn unsound(author: &mut Author) -> Played {
    close(author)?;
    for _ in 0..author.dice.between(1, 3) {
        match author.dice.between(0, 4) {
            0 => author.van(Band::B)?,
            1 => author.van(Band::A)?,
            2 => author.van(Band::E)?,
            3 => sample_at_one_of(author, &[1_500, 7_500, 7_501, 1_001, 4_500])?,
            _ => {
                let time = author.soon();
                author.no_diode_at(time, Band::C)?
            }
        }
        between(author)?;
    }
    Ok(())
}

/// Now and then a call that is no sample.
fn between(author: &mut Author) -> Played {
    let time = author.within(3);
    match author.dice.between(0, 9) {
        0 => author.say(Call::Tick(time)),
        1 => author.limit(time, &GOOD_CURRENTS),
        2 => author.measure(time, 0),
        3 => author.say(Call::Clear(time)),
        4 => author.grant(time, &GOOD_CURRENTS),
        _ => Ok(()),
    }
}

/// A sample at one of these high levels, with a good low level.
fn sample_at_one_of(author: &mut Author, highs: &[i32]) -> Played {
    let (time, high) = (author.soon(), author.dice.pick(highs));
    let low = author.dice.pick(&GOOD_LOWS);
    author.sample(time, high, low)
}

/// Levels between the bands, sound and not.
pub fn no_band(author: &mut Author) -> Played {
    close(author)?;
    let highs = [
        7_001, 7_200, 7_499, 7_500, 4_001, 4_999, 1_501, 1_999, 1_500,
    ];
    for _ in 0..author.dice.between(2, 10) {
        if author.dice.one_in(3) {
            author.van(Band::C)?;
        } else {
            sample_at_one_of(author, &highs)?;
        }
    }
    Ok(())
}

/// No sound sample for 80 and 81 ms.
pub fn starve(author: &mut Author) -> Played {
    close(author)?;
    if author.dice.one_in(2) {
        prime(author)?;
    }
    let Some(sound) = author.state().sound else {
        return Ok(());
    };
    if author.dice.one_in(3) {
        return finish(author, sound + 81);
    }
    for age in [79, 80, 81] {
        finish(author, sound + age)?;
    }
    Ok(())
}

/// A sample with which the next one may make a pair.
fn prime(author: &mut Author) -> Played {
    let time = author.soon();
    match author.dice.between(0, 4) {
        0 => author.van_at(time, Band::B),
        1 => author.no_diode_at(time, Band::C),
        2 => author.no_diode_at(time, Band::D),
        _ => author.van_at(time, Band::D),
    }
}

/// Some call at a time at which much may happen; nothing if that has passed.
pub fn finish(author: &mut Author, time: u64) -> Played {
    if time < author.state().last {
        return Ok(());
    }
    match author.dice.between(0, 13) {
        0 => author.say(Call::Limit(time, author.state().limit)),
        1 => author.limit(time, &GOOD_CURRENTS),
        2 => author.measure(time, author.allowance() + 1),
        3 => author.measure(time, author.allowance()),
        4 => author.fault(time),
        5 => author.say(Call::Clear(time)),
        6 => author.van_at(time, Band::B),
        7 => author.van_at(time, Band::C),
        8 => author.van_at(time, Band::D),
        9 => author.no_diode_at(time, Band::D),
        10 => author.grant(time, &GOOD_CURRENTS),
        11 => author.grant(time, &LOW_CURRENTS),
        _ => author.say(Call::Tick(time)),
    }
}

/// An over-run to its 5,000 ms, mostly.
pub fn over_run(author: &mut Author) -> Played {
    close(author)?;
    let most = author.allowance();
    let time = author.soon();
    author.measure(time, most)?;
    author.measure(time, most + 1)?;
    let Some(start) = author.state().overrun else {
        return Ok(());
    };
    let time = author.soon();
    match author.dice.between(0, 9) {
        0 => author.measure(time, most)?,
        1 => author.measure(time, most + 1)?,
        2 => author.limit(time, &LOW_CURRENTS)?,
        3 => author.limit(time, &GOOD_CURRENTS)?,
        4 => author.grant(time, &LOW_CURRENTS)?,
        5 => author.grant(time, &GOOD_CURRENTS)?,
        _ => {}
    }
    let band = author.ready_band();
    author.hold_until(start + 4_999, band)?;
    finish(author, start + 4_999)?;
    finish(author, start + 5_000)?;
    finish(author, start + 5_001)
}

/// An over-run, while what it is judged by changes, once or twice, and then to its 5,000 ms, mostly.
pub fn slow_down(author: &mut Author) -> Played {
    close(author)?;
    let (time, most) = (author.soon(), author.allowance());
    author.measure(time, most + 1)?;
    let age = author.dice.pick(&[4_999, 4_999, 5_000, 20, 2_500]);
    if let Some(start) = author.state().overrun {
        author.hold_until(start + age, Band::C)?;
        author.change_allowed(start + age)?;
    }
    if author.dice.one_in(2) {
        let time = author.soon();
        author.change_allowed(time)?;
    }
    let Some(start) = author.state().overrun else {
        return Ok(());
    };
    author.hold_until(start + 4_999, Band::C)?;
    finish(author, start + 4_999)?;
    finish(author, start + 5_000)
}

impl Author {
    /// A limit, or a grant, that lowers the allowed current, raises it or leaves it, if the time has not passed.
    fn change_allowed(&mut self, time: u64) -> Played {
        let state = self.state();
        if time < state.last {
            return Ok(());
        }
        let by_link = state.digital && self.dice.one_in(2);
        let told = state.allowed().unwrap_or(LEAST_CURRENT);
        let current = match self.dice.between(0, 7) {
            0 if by_link => state.grant,
            0 => state.limit,
            1 => told,
            2 => told.saturating_add(250).min(80_000),
            3 => 80_000,
            4 => self.dice.pick(&GOOD_CURRENTS),
            5 => (told / 2).max(LEAST_CURRENT),
            _ => (told - 1).max(LEAST_CURRENT),
        };
        self.tell(by_link, time, &[current])
    }

    /// One of these as a grant, or as a limit.
    pub fn tell(&mut self, by_link: bool, time: u64, of: &[u32]) -> Played {
        if by_link {
            self.grant(time, of)
        } else {
            self.limit(time, of)
        }
    }

    /// The greatest current that starts no over-run now.
    pub fn allowance(&self) -> u32 {
        11 * self.state().allowed().unwrap_or(0) / 10
    }
}

/// A stop to its 3,000 ms, mostly.
pub fn stop(author: &mut Author) -> Played {
    stop_by(author, false)
}

/// The same by a grant or by a limit, which may be told twice.
pub fn stop_by(author: &mut Author, by_link: bool) -> Played {
    close(author)?;
    let time = author.soon();
    author.tell(by_link, time, &LOW_CURRENTS)?;
    let Some(start) = author.state().stop else {
        return Ok(());
    };
    let within = start + author.dice.between(100, 2_900);
    author.hold_until(within, Band::C)?;
    if author.dice.one_in(2) {
        let time = author.soon();
        author.tell(by_link, time, &LOW_CURRENTS)?;
    }
    author.hold_until(start + 2_990, Band::C)?;
    if author.dice.one_in(3) {
        return pair_at(author, start + 3_000, &[Band::B, Band::D]);
    }
    for age in [2_999, 3_000, 3_001] {
        finish(author, start + age)?;
    }
    Ok(())
}

/// Two samples in one of these bands, the second at this time.
pub fn pair_at(author: &mut Author, time: u64, of: &[Band]) -> Played {
    let band = author.dice.pick(of);
    for time in [time - author.dice.between(1, 9), time] {
        if time >= author.state().last {
            author.van_at(time, band)?;
        }
    }
    Ok(())
}

/// A stop that nothing sound follows: later than 80 ms and 3,000 ms at once.
pub fn stop_unseen(author: &mut Author) -> Played {
    close(author)?;
    let (time, by_link) = (
        author.soon(),
        author.state().digital && author.dice.one_in(2),
    );
    author.tell(by_link, time, &LOW_CURRENTS)?;
    if author.dice.one_in(2) {
        author.van(Band::B)?;
    }
    let age = author.dice.between(2_999, 3_001);
    match author.state().stop {
        Some(start) => finish(author, start + age),
        None => Ok(()),
    }
}

/// Ready samples in C and D by turns: settled D opens a post without ventilation.
pub fn sway(author: &mut Author) -> Played {
    close(author)?;
    for _ in 0..author.dice.between(2, 12) {
        let band = author.dice.pick(&[Band::C, Band::D, Band::D]);
        author.van(band)?;
    }
    Ok(())
}

/// D is settled by a sample without a diode, 80 or 81 ms after the last sound one.
pub fn late_d(author: &mut Author) -> Played {
    close(author)?;
    author.van(Band::D)?;
    let time = author.state().last + author.dice.between(79, 82);
    author.no_diode_at(time, Band::D)
}

/// Limits, grants and levels that change within milliseconds.
pub fn flicker(author: &mut Author) -> Played {
    close(author)?;
    for _ in 0..author.dice.between(5, 30) {
        let time = author.within(2);
        match author.dice.between(0, 9) {
            0 => author.limit(time, &LOW_CURRENTS)?,
            1 => author.limit(time, &CURRENTS)?,
            2 => author.van_at(time, Band::B)?,
            3 => author.van_at(time, Band::D)?,
            4 => author.no_diode_at(time, Band::C)?,
            5 => author.grant(time, &LOW_CURRENTS)?,
            6 => author.grant(time, &CURRENTS)?,
            _ => author.van_at(time, Band::C)?,
        }
    }
    Ok(())
}

/// Samples without a diode: one, two, or with an opening or a call between.
pub fn no_diode(author: &mut Author) -> Played {
    if author.dice.one_in(3) {
        author.van(Band::B)?;
    } else {
        close(author)?;
    }
    for _ in 0..author.dice.between(1, 4) {
        let time = author.soon();
        let band = author.dice.pick(&[Band::B, Band::C, Band::D]);
        author.no_diode_at(time, band)?;
        match (author.dice.between(0, 3), author.state().sound) {
            (0, Some(sound)) => finish(author, sound + 81)?,
            (1, _) => author.van(band)?,
            _ => between(author)?,
        }
    }
    Ok(())
}

/// Low levels at the ends of the low band.
pub fn low_ends(author: &mut Author) -> Played {
    close(author)?;
    let lows = [-13_001, -13_000, -11_000, -10_999];
    for _ in 0..author.dice.between(2, 8) {
        let (time, band) = (author.soon(), author.ready_band());
        let (high, low) = (author.level(band), author.dice.pick(&lows));
        author.sample(time, high, low)?;
    }
    Ok(())
}
