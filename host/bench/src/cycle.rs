//! A whole charging cycle, from begin to the opening after a stop.

use crate::archive::Archive;
use crate::drive::Pair;
use crate::readings::square;
use crate::table::{commas, spread, Table};
use crate::timing::{contest, median, ratio, Contestant, Effort};
use chuldariin_model::{Begin, Event};
use std::hint::black_box;

const BEGIN: Begin = Begin {
    time: 0,
    rated: 32_000,
    pause: 0,
    ventilation: false,
    digital: false,
};

/// The windows of a cycle, 256 readings each.
struct Windows {
    empty: Vec<i32>,
    connected: Vec<i32>,
    connected_driven: Vec<i32>,
    ready_driven: Vec<i32>,
    ready: Vec<i32>,
}

impl Windows {
    fn new() -> Windows {
        let window = |high, low| square(high, low, 20, 256);
        Windows {
            empty: window(12_000, 12_000),
            connected: window(9_000, 9_000),
            connected_driven: window(9_000, -12_000),
            ready_driven: window(6_000, -12_000),
            ready: window(6_000, 6_000),
        }
    }

    /// The window that the board would see at a time.
    fn at(&self, time: u64) -> &[i32] {
        match time {
            0..60 => &self.empty,
            60..100 => &self.connected,
            100..140 => &self.connected_driven,
            140..AFTER_STOP => &self.ready_driven,
            AFTER_STOP..AFTER_OPENING => &self.ready,
            _ => &self.empty,
        }
    }
}

/// The limit falls to 0 here, and the contactor opens 3,000 later, ms.
const STOP: u64 = 10_000;
const AFTER_STOP: u64 = STOP + 20;
const AFTER_OPENING: u64 = AFTER_STOP + 3_000;
const END: u64 = AFTER_OPENING + 100;

/// The calls of a cycle after begin: a sample every 20 ms, and two measures and a tick between.
fn calls(windows: &Windows) -> Vec<(u64, Event<'_>)> {
    let mut calls = vec![(0, Event::Limit(32_000))];
    for time in (20..=END).step_by(20) {
        calls.push((time, Event::Sample(windows.at(time))));
        if time == STOP {
            calls.push((time, Event::Limit(0)));
        }
        calls.push((time + 5, Event::measure_one(current_at(time))));
        calls.push((time + 10, Event::Tick));
        calls.push((time + 15, Event::measure_one(current_at(time))));
    }
    calls
}

/// Over for one second, which latches nothing.
fn current_at(time: u64) -> u32 {
    match time {
        4_000..5_000 => 36_000,
        _ => 31_000,
    }
}

/// Both sides agree call by call, and the contactor closed and opened once.
fn check(calls: &[(u64, Event)]) {
    let mut pair = Pair::begin(&BEGIN);
    let mut openings = 0;
    for (time, event) in calls {
        let closed = pair.model.closed;
        pair.call(*time, event);
        if closed && !pair.model.closed {
            openings += 1;
        }
    }
    assert_eq!((pair.model.closings, openings), (1, 1), "one cycle");
}

fn archive_cycle(calls: &[(u64, Event)]) {
    let (mut archive, begun) = Archive::begin(black_box(&BEGIN));
    black_box(begun);
    for (time, event) in calls {
        black_box(archive.call(*time, event));
    }
}

fn model_cycle(calls: &[(u64, Event)]) {
    let begun = chuldariin_model::begin(black_box(&BEGIN));
    let (mut model, _) = begun.expect("begin is in range");
    for (time, event) in calls {
        let (next, outcome) = model.call(*time, event);
        model = next;
        black_box(outcome.reply);
    }
}

pub fn run(effort: Effort) {
    let windows = Windows::new();
    let calls = calls(&windows);
    check(&calls);
    let contestants = vec![
        Contestant::new(|| archive_cycle(&calls)),
        Contestant::new(|| model_cycle(&calls)),
    ];
    let times = contest(contestants, effort);
    let count = calls.len() + 1;
    println!("3. A whole charging cycle: {} calls", commas(count));
    println!(
        "   begin, limit, a sample of 256 readings every 20 ms, two measures and a tick between,"
    );
    println!("   a stop, the opening. The model counts every supporter.\n");
    let mut table = Table::new(&[
        "side",
        "us per cycle",
        "calls per second",
        "archive / model",
    ]);
    let sides = ["archive", "model"].into_iter().zip(&times);
    for (name, side) in sides {
        let cycle = median(side);
        table.row(vec![
            name.to_string(),
            format!("{:.1}", cycle / 1e3),
            commas((count as f64 * 1e9 / cycle) as usize),
            spread(&ratio(&times[0], side)),
        ]);
    }
    table.print();
}
