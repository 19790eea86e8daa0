//! Numbers, waves, faults and refusals in words.

use crate::evaluate::in_range;
use crate::grant;
use crate::latched::Latched;
use crate::turn::Turn;
use chuldariin::{reading, Reading};
use chuldariin_log::{Call, Room, Wall, Window};
use chuldariin_model::{Band, State, ENOUGH, LEAST_CURRENT, LONGEST, NEAR, READING_END, SHORTEST};

/// Each fault in words, by its number less 1.
pub const FAULTS: [&str; 5] = [
    "no diode",
    "over-current",
    "residual current",
    "welded contact",
    "over-temperature",
];

/// Each cause of an opening in words, (i) to (v).
pub const CAUSES: [&str; 5] = [
    "two unsound samples in a row",
    "no sound sample for more than 80 ms",
    "state D in a post without ventilation",
    "a stop 3 s old",
    "a fault",
];

/// The number of each cause.
pub const NUMERALS: [&str; 5] = ["i", "ii", "iii", "iv", "v"];

/// Each refusal that a call can get: its number, and what it means.
pub const REFUSALS: [(usize, &str); 11] = [
    (1, "settings out of range, or nothing has begun"),
    (2, "the time is before the last accepted call"),
    (
        3,
        "the time is above 1,000,000,000,000 ms: count from the post's start",
    ),
    (4, "the window's length"),
    (5, "a reading out of range"),
    (6, "no supported reading"),
    (7, "a measured current too large: the meter, or its scaling"),
    (8, "a fault that is not for the host to tell"),
    (11, "a grant too large: the link, or its scaling"),
    (12, "a link call to a plain post"),
    (13, "a limit too large: the load manager, or its scaling"),
];

/// A number with a comma before each three digits.
pub fn grouped(number: impl Into<i128>) -> String {
    let number = number.into();
    let digits = match u64::try_from(number.unsigned_abs()) {
        Ok(short) => short.to_string(),
        Err(_) => number.unsigned_abs().to_string(),
    };
    let mut text = String::with_capacity(digits.len() * 4 / 3 + 2);
    text.push_str(if number < 0 { "-" } else { "" });
    let (first, rest) = digits.split_at((digits.len() - 1) % 3 + 1);
    text.push_str(first);
    for three in rest.as_bytes().chunks(3) {
        text.push(',');
        text.extend(three.iter().map(|digit| char::from(*digit)));
    }
    text
}

/// How many of something: 1 closing, 2 closings.
pub fn counted(number: u64, name: &str) -> String {
    let plural = if number == 1 { "" } else { "s" };
    format!("{} {name}{plural}", grouped(number))
}

/// Several things: one, two and three.
pub fn listed(words: &[String]) -> String {
    match words.split_last() {
        Some((last, rest)) if !rest.is_empty() => format!("{} and {last}", rest.join(", ")),
        _ => words.concat(),
    }
}

/// A current in amps: 31,980 mA is 31.98 A.
pub fn amps(current: u32) -> String {
    let text = format!("{}.{:03}", current / 1_000, current % 1_000);
    // Every announced current is a whole number of 10 mA.
    format!("{} A", text.strip_suffix('0').unwrap_or(&text))
}

/// A wave command: a duty with its current, or a steady level.
pub fn wave(wave: u32) -> String {
    match (wave, reading(wave)) {
        (0, _) => "-12 V".to_string(),
        (1_000, _) => "+12 V".to_string(),
        (_, Ok(Reading::Current(current))) => format!("{} = {}", duty(wave), amps(current.0)),
        _ => duty(wave),
    }
}

/// A duty in percent.
pub fn duty(wave: u32) -> String {
    format!("{}.{} %", wave / 10, wave % 10)
}

pub fn letter(band: Option<Band>) -> &'static str {
    match band {
        Some(Band::A) => "A",
        Some(Band::B) => "B",
        Some(Band::C) => "C",
        Some(Band::D) => "D",
        Some(Band::E) => "E",
        None => "U",
    }
}

/// The fault that a reply tells, and how many more are latched.
pub fn reply_fault(turn: &Turn) -> String {
    Latched::of(&turn.after).with_more(turn.reply.fault)
}

/// A fault by its number.
pub fn fault(number: u8) -> &'static str {
    match number {
        1..=5 => FAULTS[number as usize - 1],
        _ => "",
    }
}

/// The latched faults in words, and which was first; empty if there is none.
pub fn faults(state: &State) -> String {
    Latched::of(state).words()
}

/// All that keeps a controller's wave from being driven, with the contactor closed or open when it was chosen.
pub fn why_steady(state: &State, closed: bool) -> String {
    let mut why = Vec::new();
    if state.any_fault() {
        why.push(format!("fault latched: {}", faults(state)));
    }
    why.extend(too_low(state, closed));
    match state.settled {
        None => why.push("no state is settled (U)".to_string()),
        Some(Band::A) => why.push("state A: no van is plugged in".to_string()),
        Some(Band::D) if !state.ventilation => {
            why.push("state D, and the post has no ventilation".to_string());
        }
        Some(Band::E) => why.push("state E".to_string()),
        Some(_) => {}
    }
    why.join(", and ")
}

/// The currents that keep it so: the limit, and in a closed digital post the grant, but for its 0 while A is settled.
pub fn too_low(state: &State, closed: bool) -> Vec<String> {
    let mut low = Vec::new();
    if state.rated.min(state.limit) < LEAST_CURRENT {
        low.push(format!("limit {} mA is below 6,000", grouped(state.limit)));
    }
    if closed && grant::is_low(state) && state.settled != Some(Band::A) {
        low.push(format!("grant {} mA is below 6,000", grouped(state.grant)));
    }
    low
}

/// A call without its time.
pub fn call(turn: &Turn) -> String {
    match (turn.call, turn.sample) {
        (Call::Begin(begin), _) => format!("begin {} mA", grouped(begin.rated)),
        (Call::Sample(_, Window::Halves(high, low)), _) => {
            format!("sample {} / {}", grouped(*high), grouped(*low))
        }
        (Call::Sample(..), Some(sample)) => {
            format!("window {} / {}", grouped(sample.high), grouped(sample.low))
        }
        (Call::Sample(_, window), None) => format!("window of {}", grouped(window.length() as u64)),
        (Call::Limit(_, current), _) => format!("limit {} mA", grouped(*current)),
        (Call::Measure(_, current), _) => format!("measure {} mA", grouped(*current)),
        (Call::MeasureLines(..), _) => "measure on 3 lines".to_string(),
        (Call::Link(_, granted), _) => format!("link {} mA", grouped(*granted)),
        (Call::Fault(_, kind @ 1..=5), _) => format!("fault {kind} {}", fault(*kind as u8)),
        (Call::Fault(_, kind), _) => format!("fault {}", grouped(*kind)),
        (Call::Clear(_), _) => "clear".to_string(),
        (Call::Tick(_), _) => "tick".to_string(),
    }
}

/// What refusal 7 comes for.
const MEASURE_RULE: &str =
    "a measured current is at most 200,000 mA; is the meter's unit milliamps?";

/// Why a refused call was refused.
pub fn refusal(turn: &Turn) -> String {
    match (turn.reply.refusal, turn.call) {
        (1, Call::Begin(begin)) => settings(begin.rated, begin.pause),
        (1, _) => "no begin has been accepted yet".to_string(),
        (2, _) => format!(
            "time {} is before the last accepted call, at {}",
            turn.call.time(),
            turn.before.last
        ),
        (3, _) => too_late(turn.call.time()),
        (4, Call::Sample(_, window)) => format!(
            "{} readings, where {SHORTEST} to {} are allowed",
            grouped(window.length() as u64),
            grouped(LONGEST as u64)
        ),
        (5, Call::Sample(_, window)) => bad_reading(window),
        (6, _) => {
            format!("no reading has {ENOUGH} readings, itself counted, within {NEAR} mV")
        }
        (7, Call::MeasureLines(_, lines)) => format!("{}: {MEASURE_RULE}", above(lines)),
        (7, _) => MEASURE_RULE.to_string(),
        (8, _) => "the host may tell faults 3, 4 and 5".to_string(),
        (11, _) => "a grant is at most 80,000 mA; is the link's unit milliamps?".to_string(),
        (12, _) => {
            "a plain post takes no grant: begin it digital, or leave the link out".to_string()
        }
        (13, _) => format!(
            "a limit is at most 80,000 mA, so {} mA stays; is the load manager's unit milliamps?",
            grouped(turn.before.limit)
        ),
        (number, _) => format!("refusal {number}"),
    }
}

/// Times since 1970, of this century.
const EPOCH: std::ops::Range<u64> = 946_684_800_000..4_102_444_800_000;

/// Why a time is above the largest, and what to do.
fn too_late(time: u64) -> String {
    let units = [
        (1, "milliseconds"),
        (1_000, "microseconds"),
        (1_000_000, "nanoseconds"),
    ];
    let since_1970 = units.iter().find(|unit| EPOCH.contains(&(time / unit.0)));
    let advice = match since_1970 {
        Some((parts, unit)) => {
            let date = i64::try_from(time / parts).ok().and_then(Wall::utc);
            let date = date.map_or(String::new(), |date| format!(" ({date})"));
            format!("it looks like {unit} since 1970{date}: ")
        }
        None => String::new(),
    };
    format!(
        "the time is above 1,000,000,000,000 ms; {advice}count milliseconds from the post's start"
    )
}

/// The currents on the three lines, mA.
pub fn lines(lines: [u32; 3]) -> String {
    lines.map(grouped).join(" ")
}

/// The line with the largest current, and that current; of equal ones the first.
pub fn largest(lines: [u32; 3]) -> (usize, u32) {
    let most = lines[0].max(lines[1]).max(lines[2]);
    let place = lines.iter().position(|&line| line == most);
    (place.unwrap_or(0) + 1, most)
}

/// The lines whose currents are out of range.
fn above(lines: &[u32; 3]) -> String {
    let above = lines.iter().enumerate().filter(|line| *line.1 > 200_000);
    let words: Vec<String> = above
        .map(|(place, &line)| format!("{} mA on line {}", grouped(line), place + 1))
        .collect();
    words.join(", ")
}

/// What is out of range at begin.
fn settings(rated: u32, pause: u64) -> String {
    let mut wrong = Vec::new();
    if !(6_000..=80_000).contains(&rated) {
        wrong.push(format!(
            "rated {} mA is not 6,000 to 80,000",
            grouped(rated)
        ));
    }
    if pause != 0 && !(1_000..=60_000).contains(&pause) {
        let pause = grouped(pause);
        wrong.push(format!("pause {pause} ms is neither 0 nor 1,000 to 60,000"));
    }
    wrong.join(", ")
}

/// The first reading that is out of range.
fn bad_reading(window: &Window) -> String {
    let mut room = Room::default();
    let mut readings = window.readings(&mut room).iter().enumerate();
    match readings.find(|reading| !in_range(*reading.1)) {
        Some((place, reading)) => format!(
            "reading {} is {} mV, where {} to {} are allowed",
            place + 1,
            grouped(*reading),
            grouped(-READING_END),
            grouped(READING_END)
        ),
        None => "a reading is out of range".to_string(),
    }
}
