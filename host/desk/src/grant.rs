//! The grant of a digital post, in words.

use crate::turn::Turn;
use crate::words::{grouped, why_steady};
use chuldariin_log::Call;
use chuldariin_model::{driven, Band, State, LEAST_CURRENT};

/// Has a digital post too little to close on?
pub fn is_low(state: &State) -> bool {
    state.digital && state.grant < LEAST_CURRENT
}

/// The grant of a digital post behind these letters; nothing in a plain one.
pub fn shown(state: &State, before: &str) -> String {
    match state.digital {
        true => format!("{before}grant {} mA", grouped(state.grant)),
        false => String::new(),
    }
}

/// What is behind the closing condition.
pub fn detail(state: &State) -> String {
    let grant = grouped(state.grant);
    match state.settled {
        Some(Band::A) => format!("{grant} mA: it is 0 while A is settled"),
        _ if is_low(state) => format!("{grant} mA: below 6,000"),
        _ => format!("{grant} mA"),
    }
}

/// What an open contactor waits for.
pub fn wait(state: &State) -> Option<String> {
    let wait = || {
        let grant = grouped(state.grant);
        format!("a grant of 6,000 mA or more (it is {grant})")
    };
    is_low(state).then(wait)
}

/// A grant that settled A has set to 0: one that was kept, or the one that the call brings.
pub fn lost(turn: &Turn) -> Option<String> {
    if !turn.outcome.grant_reset {
        return None;
    }
    Some(match turn.call {
        Call::Link(..) => {
            "accepted, but the grant is 0: A is settled (tell it when B is)".to_string()
        }
        _ => format!(
            "the grant of {} mA is set to 0: A is settled",
            grouped(turn.before.grant)
        ),
    })
}

/// A wave that comes back after an opening: closed, the post had too low a grant for it; open, it needs none.
pub fn driven_again(turn: &Turn) -> Option<String> {
    let (before, after) = (&turn.before, &turn.after);
    let is_driven = |state: &State| driven(state.digital, state.wave);
    let for_the_grant = before.digital
        && !before.closed
        && !is_driven(before)
        && why_steady(before, false).is_empty();
    let words = "the wave is driven again: the contactor is open, and the van may negotiate";
    (for_the_grant && is_driven(after)).then(|| words.to_string())
}
