//! How often a changed duty did what it should to an over-run.

use crate::pair::Seen;
use crate::tally::Tally;
use chuldariin_log::Call;
use chuldariin_model::{driven, duty_for};

/// What a list can make of an over-run by its duty (document 02, c).
pub const RESTARTS: [&str; 11] = [
    "restarts",
    "lowered at 4,999",
    "lowered at 5,000, latches",
    "lowered again",
    "lowered, none runs",
    "raised, runs on",
    "raised at 4,999, runs on",
    "same limit at 4,999, runs on",
    "same duty at 4,999, runs on",
    "4,999 after a restart, runs on",
    "5,000 after a restart, latches",
];

/// What only an altered controller can make of it.
pub const ALTERED_RESTARTS: [&str; 3] = ["open", "without a limit call", "from steady, runs on"];

impl Tally {
    /// What a duty that is lowered, raised or told again does to an over-run. A digital post has one duty.
    pub(crate) fn see_duty(&mut self, seen: &Seen) {
        let (before, after) = (&seen.before, &seen.after);
        if before.digital {
            return;
        }
        if seen.outcome.restarted {
            self.see_restart(seen);
        } else if driven(false, before.wave)
            && after.wave < before.wave
            && driven(false, after.wave)
        {
            self.count("restart", "lowered, none runs");
        }
        if let Some(name) = left_running(seen) {
            self.count("restart", name);
        }
        self.see_due(seen);
        self.restart = match seen.outcome.restarted {
            true => after.overrun,
            false => self.restart.filter(|_| after.overrun.is_some()),
        };
    }

    /// The ends of the 5,000 ms of an over-run that was restarted, or is about to be.
    fn see_due(&mut self, seen: &Seen) {
        let (age, latches) = (overrun_age(seen), seen.outcome.latched[1]);
        if age == Some(5_000) && latches && would_lower(seen) {
            self.count("restart", "lowered at 5,000, latches");
        }
        if self.restart.is_none() || seen.before.overrun != self.restart {
            return;
        }
        match age {
            Some(4_999) if seen.after.overrun == self.restart => {
                self.count("restart", "4,999 after a restart, runs on")
            }
            Some(5_000) if latches => self.count("restart", "5,000 after a restart, latches"),
            _ => {}
        }
    }

    /// A restart: how old the over-run was, and what is unlike the usual one.
    fn see_restart(&mut self, seen: &Seen) {
        self.count("restart", "restarts");
        if overrun_age(seen) == Some(4_999) {
            self.count("restart", "lowered at 4,999");
        }
        if self.restart.is_some() && seen.before.overrun == self.restart {
            self.count("restart", "lowered again");
        }
        if !seen.before.closed {
            self.count("restart", "open");
        }
        if !matches!(seen.call, Call::Limit(..)) {
            self.count("restart", "without a limit call");
        }
    }
}

/// How old the over-run is that the call finds; a begin may come at any time.
pub(crate) fn overrun_age(seen: &Seen) -> Option<u64> {
    seen.call.time().checked_sub(seen.before.overrun?)
}

/// Calls that leave a running over-run as it is, though they change the wave or tell a limit.
fn left_running(seen: &Seen) -> Option<&'static str> {
    let (before, after) = (&seen.before, &seen.after);
    if before.overrun.is_none() || after.overrun != before.overrun {
        return None;
    }
    let limit = matches!(seen.call, Call::Limit(..));
    let late = overrun_age(seen) == Some(4_999);
    match (before.wave, after.wave) {
        (from, _) if !driven(false, from) => Some("from steady, runs on"),
        (from, to) if from < to && late => Some("raised at 4,999, runs on"),
        (from, to) if from < to => Some("raised, runs on"),
        (from, to) if from > to || !limit => None,
        _ if after.limit == before.limit && late => Some("same limit at 4,999, runs on"),
        _ if after.limit < before.limit && late => Some("same duty at 4,999, runs on"),
        _ => None,
    }
}

/// Would the lesser of rated and limit, as the call leaves them, lower the duty?
fn would_lower(seen: &Seen) -> bool {
    let (before, after) = (&seen.before, &seen.after);
    let duty = duty_for(after.rated.min(after.limit));
    driven(false, before.wave) && duty.is_ok_and(|duty| duty < before.wave)
}
