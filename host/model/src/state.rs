//! What a controller keeps between calls, and what a call can bring.

use crate::duty::{driven, reading, Reading};
use crate::order::Order;
use crate::pilot::{Band, Verdict};

/// The state a controller keeps.
#[derive(Clone, Copy, Debug, PartialEq, Eq)]
pub struct State {
    /// Rated current of the post, mA.
    pub rated: u32,
    /// Least time from an opening to the next closing, ms.
    pub pause: u64,
    pub ventilation: bool,
    /// Begin's mark: digital, or plain.
    pub digital: bool,
    /// Depot limit, mA.
    pub limit: u32,
    /// Current granted over the link, mA.
    pub grant: u32,
    /// Line currents of the last accepted measure, line 1 first, mA.
    pub lines: [u32; 3],
    /// Wave command, a duty.
    pub wave: u32,
    /// Contactor.
    pub closed: bool,
    /// Settled state; `None` is U.
    pub settled: Option<Band>,
    /// Latched faults: index 0 is fault 1, index 4 is fault 5.
    pub faults: [bool; 5],
    /// Order in which they were latched. `None` in an altered controller: which
    /// latched fault is told is then open.
    pub order: Option<Order>,
    /// Time of the last accepted call, or of begin.
    pub last: u64,
    /// Time of the last sound sample.
    pub sound: Option<u64>,
    /// Time of the last opening.
    pub opening: Option<u64>,
    /// Start of the over-run.
    pub overrun: Option<u64>,
    /// Start of the stop.
    pub stop: Option<u64>,
    /// Verdict of the previous sample, unless it is forgotten.
    pub previous: Option<Verdict>,
    /// Number of closings.
    pub closings: u32,
}

/// Kind and arguments of a call, beside its time.
#[derive(Clone, Copy, Debug, PartialEq, Eq)]
pub enum Event<'a> {
    /// A window of readings, mV.
    Sample(&'a [i32]),
    /// The depot's limit, mA.
    Limit(u32),
    /// The three line currents, line 1 first, mA.
    Measure([u32; 3]),
    /// Kind 3 residual current, 4 welded contact, 5 over-temperature.
    Fault(u32),
    Clear,
    Tick,
    /// The granted current, mA.
    Link(u32),
}

impl Event<'static> {
    /// The old measure: one current, mA. It is line 1's, the others have 0.
    pub fn measure_one(current: u32) -> Event<'static> {
        Event::Measure([current, 0, 0])
    }
}

impl State {
    /// Is any fault latched?
    pub fn any_fault(&self) -> bool {
        self.faults.contains(&true)
    }

    /// The order, if it is known. One with other faults than the latched ones is not:
    /// a host has altered either.
    pub fn known_order(&self) -> Option<Order> {
        self.order.filter(|order| order.is_of(&self.faults))
    }

    /// The fault that is told, 0 if none is latched; `None` where that is open.
    pub fn told(&self) -> Option<u32> {
        self.known_order().map(|order| order.first())
    }

    /// Is the commanded wave driven?
    pub(crate) fn wave_driven(&self) -> bool {
        driven(self.digital, self.wave)
    }

    /// The least of grant, rated and limit, mA.
    pub fn least(&self) -> u32 {
        self.grant.min(self.rated).min(self.limit)
    }

    /// Current that a measure on this state is judged against, mA: it may carry a
    /// tenth more. `None` if a measure is not judged at all.
    pub fn allowed(&self) -> Option<u32> {
        if !self.closed || !self.wave_driven() {
            return None;
        }
        if self.digital {
            return Some(self.least());
        }
        match reading(self.wave) {
            Ok(Reading::Current(announced)) => Some(announced),
            _ => None, // not reached: a plain post's driven duty reads a current
        }
    }

    /// Letter of the reply, ASCII.
    pub fn letter(&self) -> u8 {
        if self.any_fault() {
            return b'F';
        }
        match self.settled {
            None => b'U',
            Some(Band::A) => b'A',
            Some(Band::B) => b'B',
            Some(Band::C) => b'C',
            Some(Band::D) => b'D',
            Some(Band::E) => b'E',
        }
    }

    /// Digit of the reply.
    pub fn digit(&self) -> u8 {
        match self.letter() {
            b'U' | b'E' | b'F' => 0,
            _ if self.wave_driven() => 2,
            _ => 1,
        }
    }
}
