//! What happens at a digital post.

use crate::author::Author;
use crate::edges::{GOOD_CURRENTS, LOW_CURRENTS};
use crate::scenes::{charge, close, finish, leave, over_run, pair_at, ready, slow_down, stop_by};
use crate::trial::Played;
use chuldariin_model::Band;

/// A digital post: a plain one begins again.
fn digital(author: &mut Author) -> Played {
    if author.state().digital {
        return Ok(());
    }
    let time = author.state().last;
    let begin = author.begin_marked(time, true);
    author.say(begin)?;
    author.good_limit()
}

/// A digital post with its contactor closed.
fn close_digital(author: &mut Author) -> Played {
    digital(author)?;
    close(author)
}

/// One of these grants, soon.
fn grant_soon(author: &mut Author, of: &[u32]) -> Played {
    let time = author.soon();
    author.grant(time, of)
}

/// A van that is granted its current once B is settled, and charges.
pub fn charge_by_link(author: &mut Author) -> Played {
    digital(author)?;
    for _ in 0..2 {
        author.van(Band::B)?;
    }
    author.agree()?;
    charge(author)
}

/// A van that is ready, and granted too little, or nothing, before it is granted enough.
pub fn late_grant(author: &mut Author) -> Played {
    digital(author)?;
    if author.state().closed {
        leave(author)?;
    }
    if author.state().grant > 0 {
        grant_soon(author, &LOW_CURRENTS)?;
    }
    ready(author, |_| Ok(()))?;
    for granted in [5_999, 6_000] {
        let time = author.within(3);
        author.grant(time, &[granted])?;
        author.van(Band::C)?;
    }
    author.van(Band::C)
}

/// A van leaves. What is granted before the next one is settled is lost.
pub fn next_van(author: &mut Author) -> Played {
    digital(author)?;
    if author.dice.one_in(2) {
        close(author)?;
    }
    author.agree()?;
    leave(author)?;
    for band in [Band::A, Band::A, Band::B, Band::B] {
        author.van(band)?;
        if author.dice.one_in(2) {
            let time = author.within(3);
            author.grant(time, &GOOD_CURRENTS)?;
        }
    }
    ready(author, |_| Ok(()))?;
    close(author)
}

/// A stop for want of a grant to its 3,000 ms, mostly, and what the open post tells then.
pub fn stop_by_grant(author: &mut Author) -> Played {
    digital(author)?;
    stop_by(author, true)?;
    author.van(Band::C)
}

/// A grant, or a limit, that is taken back, and given back at or before the end of the stop.
pub fn given_back(author: &mut Author) -> Played {
    close_digital(author)?;
    let (time, by_link) = (author.soon(), !author.dice.one_in(3));
    author.tell(by_link, time, &LOW_CURRENTS)?;
    let Some(start) = author.state().stop else {
        return Ok(());
    };
    let age = author.dice.pick(&[20, 1_500, 2_999, 3_000, 3_001]);
    author.hold_until(start + age, Band::C)?;
    if start + age >= author.state().last {
        author.tell(by_link, start + age, &GOOD_CURRENTS)?;
    }
    author.van(Band::C)
}

/// Limit and grant taken back in either order, and given back or not: one stop.
pub fn both_reasons(author: &mut Author) -> Played {
    close_digital(author)?;
    let (time, by_link) = (author.soon(), author.dice.one_in(2));
    author.tell(by_link, time, &LOW_CURRENTS)?;
    let Some(start) = author.state().stop else {
        return Ok(());
    };
    let within = start + author.dice.between(20, 1_000);
    author.hold_until(within, Band::C)?;
    let time = author.soon();
    author.tell(!by_link, time, &LOW_CURRENTS)?;
    let back: &[bool] = match author.dice.between(0, 3) {
        0 => &[by_link],
        1 => &[!by_link],
        2 => &[by_link, !by_link],
        _ => &[],
    };
    for &by_link in back {
        let time = author.soon();
        author.tell(by_link, time, &GOOD_CURRENTS)?;
    }
    author.hold_until(start + 2_990, Band::C)?;
    finish(author, start + 2_999)?;
    finish(author, start + 3_000)
}

/// An over-run against grant, rated or limit, one of them less than the others, mostly.
pub fn over_least(author: &mut Author) -> Played {
    close_digital(author)?;
    let low = author.dice.pick(&[6_000, 6_001, 6_005, 10_000, 16_000]);
    let (granted, limit) = author
        .dice
        .pick(&[(low, 80_000), (80_000, low), (80_000, 80_000)]);
    grant_soon(author, &[granted])?;
    let time = author.soon();
    author.limit(time, &[limit])?;
    if author.dice.one_in(2) {
        over_run(author)
    } else {
        slow_down(author)
    }
}

/// A is settled in the call that latches fault 2, or just before it.
pub fn a_with_a_latch(author: &mut Author) -> Played {
    close_digital(author)?;
    let (time, over) = (author.soon(), author.allowance() + 1);
    author.measure(time, over)?;
    let Some(start) = author.state().overrun else {
        return Ok(());
    };
    author.hold_until(start + 4_985, Band::C)?;
    let age = author.dice.pick(&[4_999, 5_000, 5_000, 5_001]);
    pair_at(author, start + age, &[Band::A])?;
    grant_soon(author, &GOOD_CURRENTS)
}
