//! A bare number of calls, to be counted from outside, such as by callgrind.
//!
//! The counts of N and of 2N calls differ by N calls and their loop.

use crate::calls::{limits, measures, uneven};
use crate::drive::{charging, idle, linked, Pair, DRIVEN_TO};
use crate::options::Options;
use crate::readings::{self, Order};
use crate::window::same;
use chuldariin_model::Event;
use std::hint::black_box;

#[derive(Clone, Copy, PartialEq, Eq)]
pub enum Counted {
    SampleWorst,
    SampleClean,
    Tick,
    Limit,
    Measure,
    MeasureLines,
    Link,
}

impl Counted {
    pub fn named(name: &str) -> Option<Counted> {
        match name {
            "sample-worst" => Some(Counted::SampleWorst),
            "sample-clean" => Some(Counted::SampleClean),
            "tick" => Some(Counted::Tick),
            "limit" => Some(Counted::Limit),
            "measure" => Some(Counted::Measure),
            "measure-lines" => Some(Counted::MeasureLines),
            "link" => Some(Counted::Link),
            _ => None,
        }
    }
}

/// Makes the calls, of 1,024 readings if they are samples.
pub fn run(counted: Counted, calls: usize, options: &Options) {
    let pair = match (options.idle, options.digital) {
        (true, _) => idle(),
        (false, true) => linked(),
        (false, false) => charging(),
    };
    let rust = options.rust;
    match counted {
        Counted::SampleWorst => {
            let window = readings::unsupported(Order::Shuffled, 1_024);
            samples(pair, &window, calls, rust);
        }
        Counted::SampleClean => samples(pair, &readings::charging(20, 1_024), calls, rust),
        Counted::Tick => others(pair, |_| Event::Tick, &[0], calls, rust),
        Counted::Limit => others(pair, Event::Limit, &limits(), calls, rust),
        Counted::Measure => others(pair, Event::measure_one, &measures(), calls, rust),
        Counted::MeasureLines => {
            let event = |current| Event::Measure(uneven(current));
            others(pair, event, &measures(), calls, rust);
        }
        Counted::Link => others(pair, Event::Link, &limits(), calls, rust),
    }
}

fn samples(mut pair: Pair, window: &[i32], calls: usize, rust: bool) {
    for _ in 0..calls {
        if rust {
            let _ = black_box(same::<false, 0>(black_box(window)));
        } else {
            black_box(pair.archive.sample(DRIVEN_TO, black_box(window)));
        }
    }
}

fn others(
    mut pair: Pair,
    event: fn(u32) -> Event<'static>,
    values: &[u32],
    calls: usize,
    rust: bool,
) {
    for value in values.iter().cycle().take(calls) {
        let event = event(black_box(*value));
        if rust {
            let (next, outcome) = pair.model.call(DRIVEN_TO, &event);
            pair.model = next;
            black_box(outcome.reply);
        } else {
            black_box(pair.archive.call(DRIVEN_TO, &event));
        }
    }
}
