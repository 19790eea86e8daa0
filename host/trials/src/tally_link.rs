//! How often a grant, or the want of one, did what it should.

use crate::pair::Seen;
use crate::tally::Tally;
use crate::tally_stops::{moved, opens_for_want, why, Why};
use chuldariin_log::Call;
use chuldariin_model::{Band, Conditions, LEAST_CURRENT};
use std::cmp::Ordering;

/// What a list can make of a grant (document 02, e).
pub const GRANTS: [&str; 8] = [
    "80,000, stored",
    "80,001, refused",
    "stored under a fault",
    "6,000, closes",
    "5,999, stays open",
    "0, stays open",
    "told between its samples, closes",
    "0, open, wave 50",
];

/// What a grant outlives, and that the post closes by it then.
pub const OUTLIVES: [&str; 3] = [
    "outlives an opening",
    "outlives a fault",
    "outlives a clear",
];
pub const CLOSES_AFTER: [&str; 3] = [
    "from before an opening, closes",
    "from before a fault, closes",
    "from before a clear, closes",
];

/// What becomes of a grant by a settled A.
pub const IN_A: [&str; 6] = [
    "lost as A is settled",
    "lost as A is settled and a fault latches",
    "lost as A is settled under a fault",
    "told, lost",
    "told between two B samples, lost",
    "fault call, stays 0",
];

/// The same in controllers that were lent A with a grant.
pub const ALTERED_IN_A: [&str; 2] = ["lent, lost by a tick", "lent, lost by a fault call"];
pub const JUDGED_IN_A: &str = "lent, lost by the measure that it judges";

/// What a link call does beside its own event.
pub const LINK_CALLS: [&str; 3] = ["opens by ii", "opens by iv", "latches 2"];

/// Refused link calls where 12 or 11 held as well.
pub const OVER_12: [&str; 2] = ["2 over 12", "3 over 12"];
pub const OVER_11: [&str; 2] = ["2 over 11", "3 over 11"];

/// What the calls since begin, or since a controller was lent, have left behind.
#[derive(Clone, Copy, Debug, Default)]
pub(crate) struct Since {
    /// Why the stop that runs has started.
    pub(crate) stop: Option<Why>,
    /// Has the last call opened for want of a grant?
    pub(crate) opened: bool,
    /// The grant after the last sample.
    sampled: Option<u32>,
    /// Has a link call since then told a grant with A settled?
    lost: bool,
    /// What the grant has outlived since it was told, by places of [`OUTLIVES`].
    outlived: [bool; 3],
    /// Has a grant, or a limit, lowered what is allowed in the over-run that runs?
    pub(crate) lowered: [bool; 2],
}

impl Since {
    /// The same after one more accepted call.
    fn then(self, seen: &Seen) -> Since {
        let (before, after) = (&seen.before, &seen.after);
        let sample = matches!(seen.call, Call::Sample(..));
        Since {
            stop: match before.stop == after.stop {
                true => self.stop,
                false => after.stop.and(why(after)),
            },
            opened: opens_for_want(seen),
            sampled: match sample {
                true => Some(after.grant),
                false => self.sampled,
            },
            lost: !sample && (self.lost || told_in_a(seen)),
            outlived: self.outlived_then(seen),
            lowered: self.lowered_then(seen),
        }
    }

    fn outlived_then(&self, seen: &Seen) -> [bool; 3] {
        let told = matches!(seen.call, Call::Link(..));
        let same = !told && seen.after.grant > 0;
        let now = outlives(seen);
        [0, 1, 2].map(|event| same && (self.outlived[event] || now[event]))
    }

    fn lowered_then(&self, seen: &Seen) -> [bool; 2] {
        let runs = seen.after.overrun.is_some() && seen.after.overrun == seen.before.overrun;
        let now = moved(seen);
        [0, 1].map(|of| runs && (self.lowered[of] || now == Some((of, Ordering::Less))))
    }
}

impl Tally {
    /// Refusals of a link call where a later one in their order held as well.
    pub(crate) fn see_refused_link(&mut self, seen: &Seen) {
        let Call::Link(_, granted) = *seen.call else {
            return;
        };
        let refusal = seen.outcome.reply.refusal;
        if (refusal, granted) == (11, 80_001) {
            self.count("grant", "80,001, refused");
        }
        let above = granted > 80_000;
        match (refusal, seen.before.digital) {
            (12, false) if above => self.count("order", "12 over 11"),
            (1, false) => self.count("order", "1 over 12"),
            (2, false) => self.count("order", "2 over 12"),
            (3, false) => self.count("order", "3 over 12"),
            (1, true) if above => self.count("order", "1 over 11"),
            (2, true) if above => self.count("order", "2 over 11"),
            (3, true) if above => self.count("order", "3 over 11"),
            _ => {}
        }
    }

    /// What an accepted call did to a grant, or by it.
    pub(crate) fn see_link(&mut self, seen: &Seen) {
        if matches!(seen.call, Call::Begin(_)) {
            self.since = Since::default();
            return;
        }
        self.see_told(seen);
        self.see_granted(seen);
        self.see_outlived(seen);
        self.see_a(seen);
        self.see_stop(seen);
        self.see_want(seen);
        self.see_judged(seen);
        self.see_running(seen);
        self.since = self.since.then(seen);
    }

    /// Counts the names that hold.
    pub(crate) fn count_held(&mut self, group: &'static str, names: &[(&'static str, bool)]) {
        for &(name, _) in names.iter().filter(|name| name.1) {
            self.count(group, name);
        }
    }

    /// A link call: what it stores, and what else it does.
    fn see_told(&mut self, seen: &Seen) {
        let Call::Link(_, granted) = *seen.call else {
            return;
        };
        let (after, outcome) = (&seen.after, &seen.outcome);
        let stored = after.grant == granted;
        let grants = [
            ("80,000, stored", stored && granted == 80_000),
            (
                "stored under a fault",
                stored && granted > 0 && after.any_fault(),
            ),
        ];
        self.count_held("grant", &grants);
        let others = [
            ("opens by ii", outcome.causes[1]),
            ("opens by iv", outcome.causes[3]),
            ("latches 2", outcome.latched[1]),
        ];
        self.count_held("link call", &others);
    }

    /// Closings of a digital post, and what a grant alone keeps open.
    fn see_granted(&mut self, seen: &Seen) {
        let (before, after, conditions) = (&seen.before, &seen.after, &seen.outcome.conditions);
        let closes = after.digital && seen.outcome.closing;
        let due = Conditions {
            granted: true,
            ..*conditions
        };
        let stays = due.all() && !conditions.granted;
        let low_at_sample = self
            .since
            .sampled
            .is_some_and(|grant| grant < LEAST_CURRENT);
        let open = !before.closed && !after.closed && after.wave == 50;
        let names = [
            ("6,000, closes", closes && after.grant == 6_000),
            ("5,999, stays open", stays && after.grant == 5_999),
            ("0, stays open", stays && after.grant == 0),
            ("told between its samples, closes", closes && low_at_sample),
            ("0, open, wave 50", open && after.grant == 0),
        ];
        self.count_held("grant", &names);
    }

    fn see_outlived(&mut self, seen: &Seen) {
        let closes = seen.after.digital && seen.outcome.closing;
        for (event, outlives) in outlives(seen).into_iter().enumerate() {
            if outlives {
                self.count("grant", OUTLIVES[event]);
            }
            if closes && self.since.outlived[event] {
                self.count("grant", CLOSES_AFTER[event]);
            }
        }
    }

    /// What became of a grant by a settled A.
    fn see_a(&mut self, seen: &Seen) {
        let (before, after, lost) = (&seen.before, &seen.after, seen.outcome.grant_reset);
        let was_a = before.settled == Some(Band::A);
        let settles = lost && !was_a;
        let lent = lost && was_a && before.grant > 0;
        let latches = seen.outcome.latched.contains(&true);
        let to_b = was_a && after.settled == Some(Band::B) && after.grant == 0;
        let faulty = was_a && matches!(seen.call, Call::Fault(..));
        let judged = before.digital && seen.call.word() == "measure" && before.allowed().is_some();
        let names = [
            ("lost as A is settled", settles),
            (
                "lost as A is settled and a fault latches",
                settles && latches,
            ),
            (
                "lost as A is settled under a fault",
                settles && before.any_fault(),
            ),
            ("told, lost", told_in_a(seen)),
            ("told between two B samples, lost", to_b && self.since.lost),
            ("fault call, stays 0", faulty && before.grant == 0),
            (
                "lent, lost by a tick",
                lent && matches!(seen.call, Call::Tick(_)),
            ),
            ("lent, lost by a fault call", lent && faulty),
            (JUDGED_IN_A, lent && judged),
        ];
        self.count_held("A settled", &names);
    }
}

/// Does a link call tell a grant with A settled?
fn told_in_a(seen: &Seen) -> bool {
    let in_a = seen.before.settled == Some(Band::A) && seen.after.grant == 0;
    in_a && matches!(seen.call, Call::Link(_, 1..))
}

/// What a grant outlives in this call: an opening, a latch, a clear of a fault.
fn outlives(seen: &Seen) -> [bool; 3] {
    let (before, outcome) = (&seen.before, &seen.outcome);
    let told = matches!(seen.call, Call::Link(..));
    let same = !told && before.grant > 0 && before.grant == seen.after.grant;
    let latches = outcome.latched.contains(&true);
    let clears = before.any_fault() && matches!(seen.call, Call::Clear(_));
    [outcome.opened, latches, clears].map(|event| same && event)
}
