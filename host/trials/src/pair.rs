//! One call on both sides.

use chuldariin::raw;
use chuldariin_log::answer::answer;
use chuldariin_log::ask::ask;
use chuldariin_log::meaning::meaning;
use chuldariin_log::unlike::{unlike, unlike_kept};
use chuldariin_log::{Call, Room};
use chuldariin_model::{duty_for, levels, Outcome, Reply, State};

/// One controller, as the archive keeps it and as the model does.
#[derive(Clone, Copy, Debug)]
pub struct Pair {
    pub lent: raw::Controller,
    pub state: State,
}

/// A call on which both sides agreed.
#[derive(Clone, Copy, Debug)]
pub struct Seen<'a> {
    pub call: &'a Call,
    pub before: State,
    pub after: State,
    pub outcome: Outcome,
}

/// A call on which they did not.
#[derive(Clone, Debug)]
pub struct Difference {
    /// What differs.
    pub what: Vec<&'static str>,
    pub archive_reply: raw::Reply,
    pub lent: raw::Controller,
    pub model_reply: Reply,
    pub state: State,
}

impl Pair {
    pub fn of(lent: raw::Controller) -> Pair {
        let state = meaning(&lent);
        Pair { lent, state }
    }

    /// Puts the call to both sides and compares all that they say and keep.
    pub fn step<'a>(&mut self, call: &'a Call) -> Result<Seen<'a>, Box<Difference>> {
        let before = *self;
        let (reply, only_read) = archive(&mut self.lent, call);
        let (state, outcome) = answer(&before.state, call, levels, duty_for, &mut Room::default());
        self.state = state;
        let mut what = unlike(&reply, &outcome.reply);
        if !only_read {
            what.push("the window was written to");
        }
        if reply.refusal != 0 && self.lent != before.lent {
            what.push("a refused call changed the controller");
        }
        if left_open(call, &before.state, &outcome.reply) {
            what.push("the model leaves open which fault is told");
        }
        let kept = meaning(&self.lent);
        what.extend(unlike_kept(&kept, &state));
        // Where the model leaves the order open, the archive's holds as soon as it has one.
        self.state.order = state.order.or(kept.order);
        if what.is_empty() {
            return Ok(Seen {
                call,
                before: before.state,
                after: self.state,
                outcome,
            });
        }
        Err(Box::new(Difference {
            what,
            archive_reply: reply,
            lent: self.lent,
            model_reply: outcome.reply,
            state,
        }))
    }
}

/// Is it left open which fault is told, by a begin or where the order is known? From begin on it never is:
/// no list can pass by telling just any latched fault.
fn left_open(call: &Call, before: &State, reply: &Reply) -> bool {
    let begun = matches!(call, Call::Begin(_)) && reply.refusal == 0;
    let known = begun || before.told().is_some();
    known && reply.told.is_none()
}

/// The archive's side, and whether a window was only read.
fn archive(lent: &mut raw::Controller, call: &Call) -> (raw::Reply, bool) {
    if let Call::Sample(time, window) = call {
        // A copy that may be written to, so that a write would be seen.
        let readings = window.to_vec();
        let mut copy = readings.clone();
        let first = copy.as_mut_ptr();
        // SAFETY: `lent` is a `&mut`, and the copy has so many readings.
        let reply = unsafe { raw::chuldariin_sample(lent, *time, first, copy.len()) };
        return (reply, copy == readings);
    }
    (ask(lent, call, &mut Room::default()), true)
}
