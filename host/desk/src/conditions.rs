//! The closing conditions of a call, each with what it rests on.

use crate::causes::LOW_RULE;
use crate::grant;
use crate::turn::{Forgotten, Sample, Turn};
use crate::words::{call, faults, grouped, letter, listed, wave, why_steady};
use chuldariin_log::Call;
use chuldariin_model::{driven, in_low_band, Band, Conditions, State, LEAST_CURRENT};

/// One closing condition.
pub struct Condition {
    pub name: &'static str,
    pub holds: bool,
    pub detail: String,
}

/// The closing conditions of an accepted call; the pause goes on to the moment that is asked for.
pub fn conditions(turn: &Turn, now: u64) -> Vec<Condition> {
    let found = found(turn);
    let now = now.max(turn.after.last);
    let pause_over = |opening: u64| now - opening >= turn.after.pause;
    let pause_over = turn.after.opening.map_or(found.pause_over, pause_over);
    let condition = |name, holds, detail| Condition {
        name,
        holds,
        detail,
    };
    let mut conditions = vec![
        condition("contactor open before", found.open_before, String::new()),
        condition(
            "opened before, if at all",
            found.not_opened,
            opened_detail(turn),
        ),
        condition("a sample call", found.sample, call(turn)),
        condition("wave driven", found.wave_driven, wave_detail(turn)),
        condition("this sample proven", found.this_proven, this_detail(turn)),
        condition(
            "previous sample proven",
            found.previous_proven,
            previous_detail(turn),
        ),
        condition("both in one band", found.same_band, band_detail(turn)),
        condition("pause", pause_over, pause_detail(turn, now)),
    ];
    if turn.after.digital {
        conditions.push(condition(
            "grant",
            found.granted,
            grant::detail(&turn.after),
        ));
    }
    conditions
}

/// Begin has no step 5, but a contactor that is open after it, and no pause to wait for.
fn found(turn: &Turn) -> Conditions {
    match turn.call {
        Call::Begin(_) => Conditions {
            open_before: !turn.before.closed,
            not_opened: !turn.begun_while_closed(),
            pause_over: true,
            ..Conditions::default()
        },
        _ => turn.outcome.conditions,
    }
}

/// A double negative is hard to read, so the condition is told as what has to be.
fn opened_detail(turn: &Turn) -> String {
    match found(turn).not_opened {
        true => String::new(),
        false => "this call opened it".to_string(),
    }
}

fn wave_detail(turn: &Turn) -> String {
    let wave = wave(turn.after.wave);
    match driven(turn.after.digital, turn.after.wave) {
        true => wave,
        // A call that opens has chosen its wave with the contactor closed.
        false => format!("{wave}: {}", why_steady(&turn.after, turn.outcome.opened)),
    }
}

fn this_detail(turn: &Turn) -> String {
    match turn.sample {
        Some(sample) => why_unproven(&sample, turn.before.ventilation),
        None => "no sample in this call".to_string(),
    }
}

fn previous_detail(turn: &Turn) -> String {
    if forgets(turn) {
        return "it is forgotten in this call".to_string();
    }
    match turn.previous {
        Ok(sample) => format!(
            "at {}: {}",
            sample.time,
            why_unproven(&sample, turn.before.ventilation)
        ),
        Err(forgotten) => why_forgotten(forgotten),
    }
}

fn why_forgotten(forgotten: Forgotten) -> String {
    match forgotten {
        Forgotten::Never => "there is none since begin".to_string(),
        Forgotten::Opening(time) => format!("it was forgotten by the opening at {time}"),
        Forgotten::Fault(time) => format!("it was forgotten by the fault at {time}"),
    }
}

/// Why a sample is not proven, or that it is.
fn why_unproven(sample: &Sample, ventilation: bool) -> String {
    let mut why = Vec::new();
    let high = grouped(sample.high);
    match sample.verdict.band {
        Some(Band::C) => {}
        Some(Band::D) if ventilation => {}
        Some(Band::D) => why.push(format!(
            "high {high} mV is D, and the post has no ventilation"
        )),
        Some(band) => why.push(format!(
            "high {high} mV is {}, not a ready band",
            letter(Some(band))
        )),
        None => why.push(format!("high {high} mV has no band")),
    }
    if !sample.driven {
        why.push("the wave was not driven before its call".to_string());
    }
    if sample.driven && !in_low_band(sample.low) {
        why.push(format!("low {} mV is {LOW_RULE}", grouped(sample.low)));
    }
    match why.is_empty() {
        true => format!(
            "high {high} mV is {}, low {} mV",
            letter(sample.verdict.band),
            grouped(sample.low)
        ),
        false => why.join("; "),
    }
}

fn band_detail(turn: &Turn) -> String {
    let band = |sample: Sample| match sample.verdict.band {
        None => "no band",
        band => letter(band),
    };
    match (turn.sample, turn.previous) {
        (None, _) => "no sample in this call".to_string(),
        _ if forgets(turn) => "the previous sample is forgotten in this call".to_string(),
        (Some(this), Err(_)) => format!("no previous sample, then {}", band(this)),
        (Some(this), Ok(previous)) => format!("{}, then {}", band(previous), band(this)),
    }
}

/// Did the call forget the previous sample?
fn forgets(turn: &Turn) -> bool {
    turn.outcome.opened || turn.outcome.latched.contains(&true)
}

fn pause_detail(turn: &Turn, now: u64) -> String {
    let pause = turn.after.pause;
    match turn.after.opening {
        None => "not opened since begin".to_string(),
        Some(opening) if now - opening >= pause => format!(
            "over: opened at {opening}, {} ms ago; the pause is {} ms",
            grouped(now - opening),
            grouped(pause)
        ),
        Some(opening) => format!(
            "{} ms left of {}, since the opening at {opening}",
            grouped(pause - (now - opening)),
            grouped(pause)
        ),
    }
}

/// What an open contactor waits for at a time, in one sentence.
pub fn waits_for(turn: &Turn, now: u64) -> String {
    let after = &turn.after;
    let mut waits = waits_for_wave(after);
    waits.extend(grant::wait(after));
    match after.previous {
        Some(sample) if sample.proven => {
            waits.push(format!("one more proven sample in {}", letter(sample.band)));
        }
        _ => waits.push("two proven samples in a row in one band".to_string()),
    }
    if let Some(opening) = after.opening {
        let end = opening.saturating_add(after.pause);
        if end > now {
            waits.push(format!("the end of the pause at {end}"));
        }
    }
    listed(&waits)
}

/// What a wave that is not driven waits for.
fn waits_for_wave(state: &State) -> Vec<String> {
    let mut waits = Vec::new();
    if state.any_fault() {
        waits.push(format!("a clear call (fault: {})", faults(state)));
    }
    if state.rated.min(state.limit) < LEAST_CURRENT {
        let limit = grouped(state.limit);
        waits.push(format!("a limit of 6,000 mA or more (it is {limit})"));
    }
    let settled = match state.settled {
        None => "a settled state (it is U)",
        Some(Band::A) => "a van (the state is A)",
        Some(Band::E) => "a state other than E (a short circuit, or no power)",
        Some(Band::D) if !state.ventilation => {
            "a state other than D (D wants ventilation, and the post has none)"
        }
        Some(_) => return waits,
    };
    waits.push(settled.to_string());
    waits
}
