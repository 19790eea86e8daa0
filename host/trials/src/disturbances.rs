//! Scenes of irregular windows, faults, refused calls and clocks.

use crate::author::Author;
use crate::edges::{GOOD_CURRENTS, LARGEST};
use crate::scenes::close;
use crate::trial::Played;
use crate::windows::irregular;
use chuldariin_log::Call;
use chuldariin_model::Band;

/// Irregular windows in any state.
pub fn irregular_windows(author: &mut Author) -> Played {
    for _ in 0..author.dice.between(4, 16) {
        let (time, readings) = (author.soon(), irregular(&mut author.dice));
        author.say(Call::Sample(time, readings.into()))?;
    }
    Ok(())
}

/// Irregular windows between good ones, with the contactor closed.
pub fn irregular_among_good(author: &mut Author) -> Played {
    close(author)?;
    for _ in 0..author.dice.between(2, 8) {
        let (time, readings) = (author.soon(), irregular(&mut author.dice));
        author.say(Call::Sample(time, readings.into()))?;
        author.van(Band::C)?;
    }
    Ok(())
}

/// Faults, again and together, samples and grants under them, and clear.
pub fn faults(author: &mut Author) -> Played {
    if author.dice.one_in(2) {
        close(author)?;
    }
    for _ in 0..author.dice.between(2, 10) {
        let time = author.soon();
        let band = author.dice.pick(&[Band::A, Band::B, Band::C]);
        match author.dice.between(0, 7) {
            0..=1 => author.fault(time)?,
            2 => author.say(Call::Clear(time))?,
            3 => author.no_diode_at(time, band)?,
            4 => author.grant(time, &GOOD_CURRENTS)?,
            _ => {
                let high = author.level(band);
                author.sample(time, high, high)?
            }
        }
    }
    Ok(())
}

/// Calls that are refused, one after another, and one that is not.
pub fn refusals(author: &mut Author) -> Played {
    for _ in 0..author.dice.between(3, 12) {
        let call = author.refused();
        author.say(call)?;
    }
    author.van(Band::C)
}

/// Calls of any kind.
pub fn anything(author: &mut Author) -> Played {
    let count = author.dice.between(10, 40);
    author.anything(count)
}

/// Calls of any kind once the contactor is closed.
pub fn anything_closed(author: &mut Author) -> Played {
    close(author)?;
    let count = author.dice.between(3, 15);
    author.anything(count)
}

/// A new begin, which may be refused; its time may be any.
pub fn begin_again(author: &mut Author) -> Played {
    let times = [0, author.state().last, author.state().last / 2];
    let time = author.dice.pick(&times);
    let refused = author.bad_begin();
    author.say(refused)?;
    let begin = author.good_begin(time);
    author.say(begin)?;
    author.good_limit()
}

/// Calls before any begin.
pub fn unbegun(author: &mut Author) -> Played {
    author.anything(3)?;
    let refused = author.bad_begin();
    author.say(refused)
}

/// A charge that runs into the largest time.
pub fn last_moments(author: &mut Author) -> Played {
    let time = LARGEST - author.dice.between(0, 200);
    let begin = author.good_begin(time);
    author.say(begin)?;
    author.good_limit()?;
    close(author)?;
    for time in [LARGEST - 1, LARGEST, LARGEST, LARGEST + 1] {
        let time = time.max(author.state().last);
        author.van_at(time, Band::C)?;
    }
    let call = author.any_call(LARGEST);
    author.say(call)
}
