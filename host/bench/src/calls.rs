//! The calls without a window: the archive against the model.

use crate::archive::Archive;
use crate::drive::{charging, idle, linked, Pair, DRIVEN_TO};
use crate::table::{ns, spread, Table};
use crate::timing::{contest, median, ratio, Contestant, Effort, Times};
use chuldariin::raw::Reply;
use chuldariin_model::Event;
use chuldariin_trials::dice::Dice;
use std::hint::black_box;

/// One kind of call on both sides. It is made with the values in turn.
#[derive(Clone, Copy)]
struct Kind {
    name: &'static str,
    archive: fn(&mut Archive, u32) -> Reply,
    event: fn(u32) -> Event<'static>,
    values: fn() -> Vec<u32>,
}

const TICK: Kind = Kind {
    name: "tick",
    archive: |archive, _| archive.tick(DRIVEN_TO),
    event: |_| Event::Tick,
    values: || vec![0],
};

const MEASURE: Kind = Kind {
    name: "measure",
    archive: |archive, current| archive.measure(DRIVEN_TO, current),
    event: Event::measure_one,
    values: measures,
};

/// Calls that leave a controller as it was, but for what they store.
const IN_PLACE: [Kind; 4] = [
    TICK,
    Kind {
        name: "limit",
        archive: |archive, current| archive.limit(DRIVEN_TO, current),
        event: Event::Limit,
        values: limits,
    },
    MEASURE,
    Kind {
        name: "measure, 3 lines",
        archive: |archive, current| archive.measure_lines(DRIVEN_TO, uneven(current)),
        event: |current| Event::Measure(uneven(current)),
        values: measures,
    },
];

/// Such calls to a digital post.
const BY_LINK: [Kind; 3] = [
    TICK,
    MEASURE,
    Kind {
        name: "link",
        archive: |archive, granted| archive.link(DRIVEN_TO, granted),
        event: Event::Link,
        values: limits,
    },
];

/// Calls that do not: each is made on a fresh copy.
const ON_A_COPY: [Kind; 2] = [
    Kind {
        name: "fault",
        archive: |archive, kind| archive.fault(DRIVEN_TO, kind),
        event: Event::Fault,
        values: || vec![3, 4, 5],
    },
    Kind {
        name: "clear",
        archive: |archive, _| archive.clear(DRIVEN_TO),
        event: |_| Event::Clear,
        values: || vec![0],
    },
];

/// Limits and grants under which a wave stays driven, mA.
pub fn limits() -> Vec<u32> {
    changing(6_000, 80_000)
}

/// Measures below and above what wave 533, or a grant of 32,000, allows, mA.
pub fn measures() -> Vec<u32> {
    changing(0, 70_000)
}

/// The lines of a van that loads the second most, mA.
pub fn uneven(current: u32) -> [u32; 3] {
    [current / 2, current, current / 3]
}

fn changing(least: i32, greatest: i32) -> Vec<u32> {
    let mut dice = Dice::new(32_000);
    (0..64)
        .map(|_| dice.level(least, greatest) as u32)
        .collect()
}

fn time(kind: Kind, lent: &Pair, on_a_copy: bool, effort: Effort) -> Vec<Times> {
    let values = (kind.values)();
    let mut turn = values.iter().cycle();
    let mut archive = lent.archive;
    let archive_call = || {
        if on_a_copy {
            archive = lent.archive;
        }
        let value = turn.next().copied().unwrap_or(0);
        black_box((kind.archive)(&mut archive, black_box(value)));
    };
    let mut other_turn = values.iter().cycle();
    let mut model = lent.model;
    let model_call = || {
        if on_a_copy {
            model = lent.model;
        }
        let value = other_turn.next().copied().unwrap_or(0);
        let (next, outcome) = model.call(DRIVEN_TO, &(kind.event)(black_box(value)));
        model = next;
        black_box(outcome.reply);
    };
    let contestants = vec![Contestant::new(archive_call), Contestant::new(model_call)];
    contest(contestants, effort)
}

/// A controller, and what it does.
type Lent = (&'static str, Pair);

/// The table of some kinds, with each of these controllers.
fn print(kinds: &[Kind], controllers: &[Lent], on_a_copy: bool, effort: Effort) {
    let mut table = Table::new(&[
        "call",
        "controller",
        "archive ns",
        "model ns",
        "archive / model",
    ]);
    for &kind in kinds {
        for (state, lent) in controllers {
            let times = time(kind, lent, on_a_copy, effort);
            let ratio = ratio(&times[0], &times[1]);
            table.row(vec![
                kind.name.to_string(),
                state.to_string(),
                ns(median(&times[0])),
                ns(median(&times[1])),
                spread(&ratio),
            ]);
        }
    }
    table.print();
}

const HEAD: &str = "\
2. Calls without a window, median ns of a call
   charging: closed, wave driven, so that a measure is judged; idle: open, no van.";

pub fn run(effort: Effort) {
    let plain = [("charging", charging()), ("idle", idle())];
    println!("{HEAD}\n");
    print(&IN_PLACE, &plain, false, effort);
    println!("In a digital post");
    print(&BY_LINK, &[("charging", linked())], false, effort);
    println!("On a fresh copy of the controller for each call");
    print(&ON_A_COPY, &plain, true, effort);
}
