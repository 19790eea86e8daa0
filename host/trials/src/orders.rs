//! Faults in one call, and faults behind others.

use crate::author::Author;
use crate::scenes::close;
use crate::trial::Played;
use chuldariin_log::Call;
use chuldariin_model::Band;

/// Fault 2 at the end of an over-run, mostly in one call with another, and others behind them.
pub fn over_current_and_more(author: &mut Author) -> Played {
    close(author)?;
    let (time, over) = (author.soon(), author.allowance() + 1);
    author.measure(time, over)?;
    let Some(start) = author.state().overrun else {
        return Ok(());
    };
    author.hold_until(start + 4_985, Band::C)?;
    let end = start + 5_000;
    match author.dice.between(0, 9) {
        0..=1 => author.say(Call::Tick(end))?,
        2..=3 => author.say(Call::Clear(end))?,
        4..=6 => author.fault(end)?,
        _ => no_diode_twice(author, end)?,
    }
    one_by_one(author)
}

/// Fault 1, and others behind it.
pub fn no_diode_and_more(author: &mut Author) -> Played {
    close(author)?;
    let time = author.soon() + 10;
    no_diode_twice(author, time)?;
    one_by_one(author)
}

/// Two samples without a diode, the second at this time.
fn no_diode_twice(author: &mut Author, time: u64) -> Played {
    let first = time - author.dice.between(1, 9);
    for time in [first, time] {
        let band = author.dice.pick(&[Band::B, Band::C, Band::D]);
        author.no_diode_at(time, band)?;
    }
    Ok(())
}

/// Fault calls behind what is latched; mostly a clear, and fault calls afresh.
pub fn one_by_one(author: &mut Author) -> Played {
    fault_calls(author)?;
    if author.dice.one_in(4) {
        return Ok(());
    }
    let time = author.soon();
    author.say(Call::Clear(time))?;
    fault_calls(author)
}

/// The three kinds in any order, or some of them, each up to twice. Two calls may have one time.
fn fault_calls(author: &mut Author) -> Played {
    let mut kinds = [3, 4, 5, 3, 4, 5];
    author.dice.shuffle(&mut kinds);
    let count = author.dice.between(2, 6) as usize;
    for kind in kinds.into_iter().take(count) {
        let time = author.within(20);
        author.say(Call::Fault(time, kind))?;
    }
    Ok(())
}
