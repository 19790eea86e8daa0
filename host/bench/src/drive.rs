//! The archive and the model side by side, driven by the same calls.

use crate::archive::Archive;
use crate::readings::square;
use chuldariin_model::{Begin, Event, State};

/// The time up to which `charging` and `idle` drive, ms.
pub const DRIVEN_TO: u64 = 40;

/// Both controllers, in the same state.
#[derive(Clone, Copy)]
pub struct Pair {
    pub archive: Archive,
    pub model: State,
}

impl Pair {
    pub fn begin(b: &Begin) -> Pair {
        let (archive, reply) = Archive::begin(b);
        let (model, expected) = chuldariin_model::begin(b).expect("begin is in range");
        agree(&reply, &expected);
        Pair { archive, model }
    }

    /// One call on both. Their replies must agree.
    pub fn call(&mut self, time: u64, event: &Event) {
        let reply = self.archive.call(time, event);
        let (next, expected) = self.model.call(time, event);
        self.model = next;
        agree(&reply, &expected.reply);
    }
}

fn agree(reply: &chuldariin::raw::Reply, expected: &chuldariin_model::Reply) {
    let same = reply.refusal == expected.refusal
        && reply.letter == expected.letter
        && reply.digit == expected.digit
        && reply.wave == expected.wave
        && reply.closed == expected.closed
        && reply.closings == expected.closings
        && expected.may_tell(reply.fault.into());
    assert!(same, "archive and model differ: {reply:?} and {expected:?}");
}

fn begun(digital: bool) -> Pair {
    let mut pair = Pair::begin(&Begin {
        time: 0,
        rated: 80_000,
        pause: 0,
        ventilation: false,
        digital,
    });
    pair.call(0, &Event::Limit(32_000));
    pair
}

/// A plain post, closed, with a driven wave: state C2.
pub fn charging() -> Pair {
    closed(begun(false))
}

/// The same of a digital post.
pub fn linked() -> Pair {
    let mut pair = begun(true);
    pair.call(0, &Event::Link(32_000));
    closed(pair)
}

/// A van comes, and is ready.
fn closed(mut pair: Pair) -> Pair {
    let connected = square(9_000, 9_000, 20, 256);
    let ready = square(6_000, -12_000, 20, 256);
    for (time, window) in [
        (10, &connected),
        (20, &connected),
        (30, &ready),
        (DRIVEN_TO, &ready),
    ] {
        pair.call(time, &Event::Sample(window));
    }
    assert!(pair.model.closed, "the contactor did not close");
    pair
}

/// A plain post, open, with no van: state A1.
pub fn idle() -> Pair {
    let mut pair = begun(false);
    let empty = square(12_000, 12_000, 20, 256);
    for time in [30, DRIVEN_TO] {
        pair.call(time, &Event::Sample(&empty));
    }
    pair
}
