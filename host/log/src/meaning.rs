//! What the archive's controller means.

use chuldariin::raw;
use chuldariin_model::{Band, Order, State, Verdict};

/// The model's state for a controller of any content.
pub fn meaning(c: &raw::Controller) -> State {
    State {
        rated: c.settings.rated,
        pause: c.settings.pause,
        ventilation: c.settings.ventilation,
        digital: c.settings.digital,
        limit: c.limit,
        grant: c.grant,
        lines: c.lines.each(),
        wave: c.wave,
        closed: c.closed,
        settled: band(c.settled),
        faults: c.faults.each().map(|place| place != 0),
        order: order(&c.faults.each()),
        last: c.last,
        sound: moment(c.sound),
        opening: moment(c.opening),
        overrun: moment(c.overrun),
        stop: moment(c.stop),
        previous: previous(c.previous),
        closings: c.closings,
    }
}

/// The order of the faults; `None` where their places are those of no order.
fn order(places: &[u8; 5]) -> Option<Order> {
    let fault_at = |place| {
        (1..=5)
            .find(|&fault| places[fault - 1] == place)
            .unwrap_or(0)
    };
    let order = Order::of([1, 2, 3, 4, 5].map(|place| fault_at(place) as u32))?;
    let latched = places.iter().filter(|place| **place != 0).count();
    let held = order.places().iter().filter(|fault| **fault != 0).count();
    (latched == held).then_some(order)
}

/// A byte that is no letter from A to E is no band.
fn band(byte: u8) -> Option<Band> {
    match byte {
        b'A' => Some(Band::A),
        b'B' => Some(Band::B),
        b'C' => Some(Band::C),
        b'D' => Some(Band::D),
        b'E' => Some(Band::E),
        _ => None,
    }
}

fn moment(m: raw::Moment) -> Option<u64> {
    m.set.then_some(m.time)
}

fn previous(p: raw::Previous) -> Option<Verdict> {
    p.kept.then_some(Verdict {
        band: band(p.verdict.band),
        sound: p.verdict.sound,
        proven: p.verdict.proven,
        diode_bad: p.verdict.diodebad,
    })
}
