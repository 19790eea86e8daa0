//! A call with its arguments.

use crate::window::{Room, Window};
use chuldariin_model::{Begin, Event};

/// The calls. The first number of all but begin is the time, ms.
#[derive(Clone, Debug, PartialEq, Eq)]
pub enum Call {
    Begin(Begin),
    /// A window of readings, mV.
    Sample(u64, Window),
    /// The depot's limit, mA.
    Limit(u64, u32),
    /// One current, mA: on line 1, and 0 on the others.
    Measure(u64, u32),
    /// The current on each line, line 1 first, mA.
    MeasureLines(u64, [u32; 3]),
    /// The current granted by link, mA.
    Link(u64, u32),
    /// Kind 3 residual current, 4 welded contact, 5 over-temperature.
    Fault(u64, u32),
    Clear(u64),
    Tick(u64),
}

impl Call {
    pub fn time(&self) -> u64 {
        match self {
            Call::Begin(begin) => begin.time,
            Call::Sample(time, _)
            | Call::Limit(time, _)
            | Call::Measure(time, _)
            | Call::MeasureLines(time, _)
            | Call::Link(time, _)
            | Call::Fault(time, _)
            | Call::Clear(time)
            | Call::Tick(time) => *time,
        }
    }

    /// Kind and arguments as the model takes them; none for begin.
    pub fn event<'a>(&'a self, room: &'a mut Room) -> Option<Event<'a>> {
        match self {
            Call::Begin(_) => None,
            Call::Sample(_, window) => Some(Event::Sample(window.readings(room))),
            Call::Limit(_, current) => Some(Event::Limit(*current)),
            Call::Measure(_, current) => Some(Event::measure_one(*current)),
            Call::MeasureLines(_, lines) => Some(Event::Measure(*lines)),
            Call::Link(_, granted) => Some(Event::Link(*granted)),
            Call::Fault(_, kind) => Some(Event::Fault(*kind)),
            Call::Clear(_) => Some(Event::Clear),
            Call::Tick(_) => Some(Event::Tick),
        }
    }

    /// The name of the call; a sample has it even if its line is a `window`.
    pub fn word(&self) -> &'static str {
        match self {
            Call::Begin(_) => "begin",
            Call::Sample(..) => "sample",
            Call::Limit(..) => "limit",
            Call::Measure(..) | Call::MeasureLines(..) => "measure",
            Call::Link(..) => "link",
            Call::Fault(..) => "fault",
            Call::Clear(_) => "clear",
            Call::Tick(_) => "tick",
        }
    }
}
