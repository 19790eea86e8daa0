//! How often faults were latched in each order, and which of them was told.

use crate::pair::Seen;
use crate::tally::{Tally, FAULTS};
use chuldariin_log::Call;
use chuldariin_model::{Order, Reply};

/// The orders that a list can reach (document 02, f), by the number of faults.
///
/// Under a latched fault the wave is 0: no sample is diode-bad, and no over-run runs. So a list latches 1 and 2
/// only where nothing is latched before the call. 1 comes first or not at all. 2 comes first, or second, in the
/// call that latches 1 or a fault call's own fault. 3, 4 and 5 follow in any order. Of two faults that leaves
/// 16 of 20 orders, of three 27 of 60, of four 24 of 120, and of five 6 of 120.
pub const ORDERS: [(&str, &[&str]); 5] = [
    ("order of 1", &FAULTS),
    ("order of 2", &OF_TWO),
    ("order of 3", &OF_THREE),
    ("order of 4", &OF_FOUR),
    ("order of 5", &OF_FIVE),
];

const OF_TWO: [&str; 16] = [
    "1 2", "1 3", "1 4", "1 5", "2 3", "2 4", "2 5", "3 2", "3 4", "3 5", "4 2", "4 3", "4 5",
    "5 2", "5 3", "5 4",
];
const OF_THREE: [&str; 27] = [
    "1 2 3", "1 2 4", "1 2 5", "1 3 4", "1 3 5", "1 4 3", "1 4 5", "1 5 3", "1 5 4", "2 3 4",
    "2 3 5", "2 4 3", "2 4 5", "2 5 3", "2 5 4", "3 2 4", "3 2 5", "3 4 5", "3 5 4", "4 2 3",
    "4 2 5", "4 3 5", "4 5 3", "5 2 3", "5 2 4", "5 3 4", "5 4 3",
];
const OF_FOUR: [&str; 24] = [
    "1 2 3 4", "1 2 3 5", "1 2 4 3", "1 2 4 5", "1 2 5 3", "1 2 5 4", "1 3 4 5", "1 3 5 4",
    "1 4 3 5", "1 4 5 3", "1 5 3 4", "1 5 4 3", "2 3 4 5", "2 3 5 4", "2 4 3 5", "2 4 5 3",
    "2 5 3 4", "2 5 4 3", "3 2 4 5", "3 2 5 4", "4 2 3 5", "4 2 5 3", "5 2 3 4", "5 2 4 3",
];
const OF_FIVE: [&str; 6] = [
    "1 2 3 4 5",
    "1 2 3 5 4",
    "1 2 4 3 5",
    "1 2 4 5 3",
    "1 2 5 3 4",
    "1 2 5 4 3",
];

/// An order that no list can reach.
pub const NO_LISTS: &str = "no list's";

/// Two faults in one call, and one in a call that drops those before.
pub const LATCHES: [&str; 5] = [
    "1 and 2 in one call",
    "3 and 2 in one call",
    "4 and 2 in one call",
    "5 and 2 in one call",
    "2 in a clear",
];
/// A fault that keeps its place.
pub const AGAIN: [&str; 2] = [
    "first told again, others behind it",
    "later one told again, others behind it",
];
/// How an order differs from the one before the clear.
pub const AFRESH: [&str; 2] = ["another first", "the same in another order"];

/// Which of the latched faults a reply tells, also one beside a refusal.
pub const TOLD: [&str; 5] = [
    "none",
    "the only one",
    "the lowest of more",
    "not the lowest of more",
    "not the lowest of more, refused",
];
/// Left open, as only an altered controller leaves it.
pub const OPEN: &str = "open";

impl Tally {
    /// The fault in a reply, among those latched.
    pub(crate) fn see_first(&mut self, reply: &Reply) {
        let Some(told) = reply.told else {
            return self.count("told", OPEN);
        };
        let mut latched = (1..=5).filter(|&fault| reply.faults[fault as usize - 1]);
        let name = match (latched.next(), latched.next()) {
            (None, _) => "none",
            (Some(_), None) => "the only one",
            (Some(lowest), _) if lowest == told => "the lowest of more",
            _ if reply.refusal == 0 => "not the lowest of more",
            _ => "not the lowest of more, refused",
        };
        self.count("told", name);
    }

    /// What an accepted call did to the order.
    pub(crate) fn see_faults(&mut self, seen: &Seen) {
        self.see_together(seen);
        let (Some(before), Some(after)) = (seen.before.order, seen.after.order) else {
            return;
        };
        self.see_again(seen.call, &before);
        match seen.call {
            Call::Begin(_) => self.dropped = None,
            Call::Clear(_) if before.first() != 0 => self.dropped = Some(before),
            _ => {}
        }
        if before != after && after.first() != 0 {
            self.see_reached(&after);
            self.see_afresh(&before, &after);
        }
    }

    /// Two faults in one call, or one in a clear.
    fn see_together(&mut self, seen: &Seen) {
        let [one, two, ..] = seen.outcome.latched;
        let own = |kind| matches!(*seen.call, Call::Fault(_, own) if own == kind);
        let names = [
            ("1 and 2 in one call", one && two),
            ("3 and 2 in one call", two && own(3)),
            ("4 and 2 in one call", two && own(4)),
            ("5 and 2 in one call", two && own(5)),
            ("2 in a clear", two && matches!(seen.call, Call::Clear(_))),
        ];
        self.count_held("latches", &names);
    }

    /// A fault that is told again while another has its place behind it.
    fn see_again(&mut self, call: &Call, order: &Order) {
        let Call::Fault(_, kind) = *call else {
            return;
        };
        let places = order.places();
        let behind = |place: usize| places.get(place + 1).is_some_and(|fault| *fault != 0);
        match places.iter().position(|fault| *fault == kind) {
            Some(0) if behind(0) => self.count("told again", AGAIN[0]),
            Some(place) if behind(place) => self.count("told again", AGAIN[1]),
            _ => {}
        }
    }

    /// An order that a call has made longer, or made anew.
    fn see_reached(&mut self, order: &Order) {
        let places = order.places().into_iter().filter(|fault| *fault != 0);
        let faults: Vec<String> = places.map(|fault| fault.to_string()).collect();
        let (group, names) = ORDERS[faults.len() - 1];
        let reached = faults.join(" ");
        let name = names.iter().find(|name| **name == reached);
        self.count(group, name.unwrap_or(&NO_LISTS));
    }

    /// How an order differs from the one that the last clear dropped.
    fn see_afresh(&mut self, before: &Order, after: &Order) {
        let Some(dropped) = self.dropped else {
            return;
        };
        let first = before.first() == 0 && after.first() != dropped.first();
        let same = sorted(after) == sorted(&dropped) && *after != dropped;
        let names = [(AFRESH[0], first), (AFRESH[1], same)];
        self.count_held("after a clear", &names);
    }
}

/// Its faults by their numbers.
fn sorted(order: &Order) -> [u32; 5] {
    let mut faults = order.places();
    faults.sort();
    faults
}
