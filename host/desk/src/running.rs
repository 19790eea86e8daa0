//! Over-runs and stops: what starts, runs on or ends in a call, and when it comes to something.

use crate::causes::ago;
use crate::turn::{Overrun, Turn};
use crate::words::{duty, grouped, largest, listed, why_steady};
use chuldariin_log::Call;
use chuldariin_model::{State, LEAST_CURRENT, OVERRUN_AGE, STOP_AGE};

/// An over-run that starts, ends without a fault, or runs on under another duty.
pub fn overrun(turn: &Turn) -> Option<String> {
    match (turn.overrun, turn.overrun_after()) {
        (None, Some(overrun)) => Some(format!(
            "over-run starts: {} is above {}; {}",
            judged_current(turn.call, &turn.after),
            bound(&turn.before),
            fault_2_due(&overrun)
        )),
        (Some(_), Some(overrun)) if turn.before.wave != turn.after.wave => {
            Some(another_duty(turn, &overrun))
        }
        (Some(_), None) if !turn.outcome.latched[1] => {
            Some(format!("over-run ends, {}", age(turn)))
        }
        _ => None,
    }
}

/// A lowered duty restarts an over-run, and a raised one leaves it running.
fn another_duty(turn: &Turn, overrun: &Overrun) -> String {
    let (what, way) = match turn.outcome.restarted {
        true => ("restarts", "lowered"),
        false => ("runs on", "raised"),
    };
    format!(
        "over-run {what}, {}: the duty is {way} from {} to {}; {}",
        age(turn),
        duty(turn.before.wave),
        duty(turn.after.wave),
        fault_2_due(overrun)
    )
}

/// How old the over-run is that the call found.
fn age(turn: &Turn) -> String {
    let Some(overrun) = turn.overrun else {
        return String::new();
    };
    let age = grouped(turn.after.last - overrun.start);
    match overrun.restarted() {
        false => format!("{age} ms old"),
        true => format!("{age} ms after its restart (it began at {})", overrun.first),
    }
}

/// When fault 2 comes to an over-run of this start.
pub fn fault_2_at(start: u64) -> String {
    format!("fault 2 at {}", start + OVERRUN_AGE)
}

/// The same, and what puts it off: in a digital post nothing restarts an over-run.
pub fn fault_2_due(overrun: &Overrun) -> String {
    let lowered = match overrun.digital {
        true => "",
        false => " or the duty is lowered",
    };
    format!("{} unless it ends{lowered}", fault_2_at(overrun.start))
}

/// How old an over-run is that latches fault 2.
pub fn overrun_so_far(turn: &Turn) -> String {
    let ago = ago(turn.before.overrun, turn);
    match turn.overrun.filter(|overrun| overrun.restarted()) {
        None => format!("the over-run began {ago}"),
        Some(Overrun { first, .. }) => {
            format!("the over-run restarted {ago}, when the duty was lowered; it began at {first}")
        }
    }
}

/// What was judged of a measure: its current, or the largest of three with its line.
fn judged_current(call: &Call, after: &State) -> String {
    let (line, current) = largest(after.lines);
    match call {
        Call::Measure(..) => format!("{} mA", grouped(current)),
        _ => format!("{} mA on line {line}", grouped(current)),
    }
}

/// The largest current that is no over-run: 1.1 times the allowed one.
fn bound(state: &State) -> String {
    match state.allowed() {
        Some(allowed) => format!(
            "{} (1.1 x {}{})",
            grouped(11 * allowed / 10),
            grouped(allowed),
            least(state, allowed)
        ),
        None => "nothing".to_string(),
    }
}

/// Which of a digital post's three currents are the least.
fn least(state: &State, allowed: u32) -> String {
    if !state.digital {
        return String::new();
    }
    let currents = [
        (state.grant, "the grant"),
        (state.rated, "the rated current"),
        (state.limit, "the limit"),
    ];
    let least = currents.iter().filter(|current| current.0 == allowed);
    let names: Vec<String> = least.map(|current| current.1.to_string()).collect();
    format!(", {}", listed(&names))
}

/// A stop that starts, that runs on with other reasons, or that ends before it opens.
pub fn stop(turn: &Turn) -> Option<String> {
    match (turn.before.stop, turn.after.stop) {
        (None, Some(start)) => Some(format!("stop starts: {}", until(turn, start))),
        (Some(start), Some(_)) if other_reasons(turn) => Some(format!(
            "stop runs on, {}: {}",
            stop_age(turn, start),
            until(turn, start)
        )),
        (Some(start), None) if !turn.outcome.causes[3] => {
            Some(format!("stop ends, {}", stop_age(turn, start)))
        }
        _ => None,
    }
}

/// A stop that runs with the contactor closed, and when it opens.
pub fn stop_runs(turn: &Turn) -> Option<String> {
    let start = turn.after.stop.filter(|_| turn.reply.closed)?;
    Some(format!(
        "A stop runs since {start}: {}.",
        until(turn, start)
    ))
}

/// Why the wave is steady, and when that opens.
fn until(turn: &Turn, start: u64) -> String {
    format!(
        "{}; opens at {} unless a wave is driven by then",
        why_steady(&turn.after, true),
        start + STOP_AGE
    )
}

fn stop_age(turn: &Turn, start: u64) -> String {
    format!("{} ms old", grouped(turn.after.last - start))
}

/// Has the limit or the grant of a digital post joined the reasons of a stop, or left them?
fn other_reasons(turn: &Turn) -> bool {
    let low = |state: &State| (state.limit < LEAST_CURRENT, state.grant < LEAST_CURRENT);
    turn.after.digital && low(&turn.before) != low(&turn.after)
}
