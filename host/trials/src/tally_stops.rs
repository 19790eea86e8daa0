//! How often a stop, or an over-run of a digital post, did what it should.

use crate::pair::Seen;
use crate::tally::{only, Tally};
use crate::tally_duty::overrun_age;
use chuldariin_log::Call;
use chuldariin_model::{duty_for, reading, Reading, State, LEAST_CURRENT};
use std::cmp::Ordering;

/// Stops that a post of either kind can make.
pub const STOPS: [&str; 4] = [
    "limit low, starts",
    "limit low, opens at 3,000",
    "limit back at 2,999, ends",
    "limit back at 3,000, ends",
];

/// Stops that only a digital post makes.
pub const GRANT_STOPS: [&str; 11] = [
    "grant low, starts",
    "grant low, opens at 3,000",
    "both low, opens at 3,000",
    "limit, then grant, opens at 3,000",
    "grant, then limit, opens at 3,000",
    "grant back at 2,999, ends",
    "grant back at 3,000, ends",
    "opens for want of a grant, wave 1000",
    "next call, wave 50",
    "next tick, wave 50",
    "fault in a stop by the grant, wave 0",
];

/// What a measure was judged against, where that is less than the other two.
pub const AT_BOUND: [&str; 3] = [
    "grant, at its bound",
    "rated, at its bound",
    "limit, at its bound",
];
pub const ONE_ABOVE: [&str; 3] = [
    "grant, one above, starts",
    "rated, one above, starts",
    "limit, one above, starts",
];

/// At the bound, and above that of the duty which a plain post would send.
pub const NO_READING: &str = "at its bound, above a duty's";

/// An over-run while grant or limit change what is allowed.
pub const LOWER: [&str; 2] = ["lower grant, runs on", "lower limit, runs on"];
pub const LOWER_LATE: [&str; 2] = [
    "lower grant at 4,999, runs on",
    "lower limit at 4,999, runs on",
];
pub const LOWER_LATCHES: [&str; 2] = ["lower grant, 5,000 latches", "lower limit, 5,000 latches"];
pub const HIGHER: [&str; 2] = ["higher grant, runs on", "higher limit, runs on"];
pub const TOO_LOW: [&str; 2] = ["grant below 6,000, ends", "limit below 6,000, ends"];

/// Why the wave of a closed post is 1000.
#[derive(Clone, Copy, Debug, PartialEq, Eq)]
pub(crate) enum Why {
    Limit,
    Grant,
    Both,
}

impl Tally {
    /// Starts and ends of a stop, by its reasons.
    pub(crate) fn see_stop(&mut self, seen: &Seen) {
        let (before, after) = (&seen.before, &seen.after);
        if before.stop.is_none() && after.stop.is_some() {
            match why(after) {
                Some(Why::Limit) => self.count("stop", "limit low, starts"),
                Some(Why::Grant) => self.count("stop", "grant low, starts"),
                _ => {}
            }
        }
        if let Some(name) = stop_end(seen, self.since.stop) {
            self.count("stop", name);
        }
    }

    /// The wave of the call that opens for want of a grant, and of the next one.
    pub(crate) fn see_want(&mut self, seen: &Seen) {
        let (before, after) = (&seen.before, &seen.after);
        let again = self.since.opened && after.wave == 50;
        let for_the_grant = before.stop.is_some() && why(before) == Some(Why::Grant);
        let names = [
            ("opens for want of a grant, wave 1000", opens_for_want(seen)),
            ("next call, wave 50", again),
            (
                "next tick, wave 50",
                again && matches!(seen.call, Call::Tick(_)),
            ),
            (
                "fault in a stop by the grant, wave 0",
                for_the_grant && after.wave == 0,
            ),
        ];
        self.count_held("stop", &names);
    }

    /// What a measure of a digital post was judged against, at its bound and one above.
    pub(crate) fn see_judged(&mut self, seen: &Seen) {
        let (before, after) = (&seen.before, &seen.after);
        let judged = before.digital && after.closed && seen.call.word() == "measure";
        let Some(least) = before.allowed().filter(|_| judged) else {
            return;
        };
        let three = [before.grant, before.rated, before.limit];
        let Some(of) = only(three.map(|current| current == least)) else {
            return;
        };
        let (largest, bound) = (after.lines.into_iter().max(), 11 * least / 10);
        let within = largest == Some(bound) && after.overrun.is_none();
        let starts = before.overrun.is_none() && after.overrun.is_some();
        let names = [
            (AT_BOUND[of], within),
            (NO_READING, within && 10 * bound > 11 * announced(least)),
            (ONE_ABOVE[of], largest == Some(bound + 1) && starts),
        ];
        self.count_held("over-run", &names);
    }

    /// An over-run of a digital post that runs while grant or limit change.
    pub(crate) fn see_running(&mut self, seen: &Seen) {
        let (before, after) = (&seen.before, &seen.after);
        if !before.digital || before.overrun.is_none() {
            return;
        }
        let (age, runs) = (overrun_age(seen), after.overrun == before.overrun);
        for of in [0, 1] {
            let to = |order| moved(seen) == Some((of, order));
            let ends = told(seen) == Some(of) && after.closed && after.overrun.is_none();
            let lower = runs && to(Ordering::Less);
            let latches = age == Some(5_000) && seen.outcome.latched[1];
            let names = [
                (LOWER[of], lower),
                (LOWER_LATE[of], lower && age == Some(4_999)),
                (LOWER_LATCHES[of], latches && self.since.lowered[of]),
                (HIGHER[of], runs && to(Ordering::Greater)),
                (TOO_LOW[of], ends),
            ];
            self.count_held("over-run", &names);
        }
    }
}

/// Why a post with a settled B or C, and no fault, is held at 1000 if it is closed.
pub(crate) fn why(state: &State) -> Option<Why> {
    let limit = state.limit < LEAST_CURRENT;
    let grant = state.digital && state.grant < LEAST_CURRENT;
    match (limit, grant) {
        (true, true) => Some(Why::Both),
        (true, false) => Some(Why::Limit),
        (false, true) => Some(Why::Grant),
        (false, false) => None,
    }
}

/// A stop that ends by what was given back, or opens at its 3,000 ms.
fn stop_end(seen: &Seen, first: Option<Why>) -> Option<&'static str> {
    let age = seen.call.time().checked_sub(seen.before.stop?)?;
    let back = seen.after.closed && seen.after.stop.is_none();
    match (age, told(seen)) {
        (2_999, Some(0)) if back => Some("grant back at 2,999, ends"),
        (3_000, Some(0)) if back => Some("grant back at 3,000, ends"),
        (2_999, Some(1)) if back => Some("limit back at 2,999, ends"),
        (3_000, Some(1)) if back => Some("limit back at 3,000, ends"),
        (3_000, _) if seen.outcome.causes[3] => stop_opens(first?, why(&seen.after)?),
        _ => None,
    }
}

/// By the reason for which a stop has started, and by the present one.
fn stop_opens(first: Why, now: Why) -> Option<&'static str> {
    match (first, now) {
        (Why::Limit, Why::Limit) => Some("limit low, opens at 3,000"),
        (Why::Grant, Why::Grant) => Some("grant low, opens at 3,000"),
        (Why::Limit, Why::Grant) => Some("limit, then grant, opens at 3,000"),
        (Why::Grant, Why::Limit) => Some("grant, then limit, opens at 3,000"),
        (_, Why::Both) => Some("both low, opens at 3,000"),
        (Why::Both, _) => None,
    }
}

/// Does a stop open that only the grant keeps up, without a fault?
pub(crate) fn opens_for_want(seen: &Seen) -> bool {
    let after = &seen.after;
    seen.outcome.causes[3] && why(after) == Some(Why::Grant) && after.wave == 1_000
}

/// Does the call tell a grant (0) or a limit (1)?
fn told(seen: &Seen) -> Option<usize> {
    match seen.call {
        Call::Link(..) => Some(0),
        Call::Limit(..) => Some(1),
        _ => None,
    }
}

/// The same, and how what is allowed has changed by it.
pub(crate) fn moved(seen: &Seen) -> Option<(usize, Ordering)> {
    let (from, to) = (seen.before.allowed()?, seen.after.allowed()?);
    Some((told(seen)?, to.cmp(&from)))
}

/// What a plain post announces with so much available, mA.
fn announced(available: u32) -> u32 {
    match duty_for(available).and_then(reading) {
        Ok(Reading::Current(current)) => current,
        _ => 0,
    }
}
