//! What happened in a call, and why: closings, openings with their causes, latches.

use crate::grant;
use crate::latched::Latched;
use crate::running::{overrun, overrun_so_far, stop};
use crate::turn::{Sample, Silence, Turn};
use crate::unsound::Unsound;
use crate::words::{fault, faults, grouped, letter, refusal, too_low, NUMERALS};
use chuldariin_log::Call;

/// How a note stands out.
#[derive(Clone, Copy, Debug, PartialEq, Eq)]
pub enum Kind {
    Closed,
    Opened,
    Refused,
    /// Nothing was judged, or the post did otherwise than commanded.
    Warned,
    /// Any other that is worth a line.
    Event,
}

/// What happened in a call, in words.
pub struct Note {
    pub kind: Kind,
    pub words: String,
}

/// All that is to be said of a call; mostly nothing.
pub fn notes(turn: &Turn) -> Vec<Note> {
    let silence = turn
        .silence
        .map(|silence| note(Kind::Warned, silent(&silence)));
    if !turn.accepted() {
        let words = format!("REFUSED {}: {}", turn.reply.refusal, refusal(turn));
        let refused = note(Kind::Refused, words);
        return [Some(refused), silence].into_iter().flatten().collect();
    }
    if let Call::Begin(_) = turn.call {
        return begun(turn).into_iter().chain(silence).collect();
    }
    let mut notes = Vec::new();
    if turn.outcome.opened {
        notes.push(note(Kind::Opened, opened(turn)));
    }
    if turn.outcome.closing {
        notes.push(note(Kind::Closed, closed(turn)));
    }
    latched(turn, &mut notes);
    let others = [
        grant::lost(turn),
        overrun(turn),
        stop(turn),
        grant::driven_again(turn),
    ];
    let others = others.into_iter().flatten();
    notes.extend(others.map(|words| note(Kind::Event, words)));
    notes.extend(silence);
    notes
}

/// A time without an accepted call.
pub fn silent(silence: &Silence) -> String {
    let judged = if silence.over { "was" } else { "is" };
    let long = grouped(silence.long);
    let (least, by) = match silence.strayed {
        true => ("at least ", ", by the refused calls' own times"),
        false => ("", ""),
    };
    format!("no accepted call for {least}{long} ms while closed{by}: the 80 ms rule {judged} not judged")
}

pub fn note(kind: Kind, words: String) -> Note {
    Note { kind, words }
}

fn begun(turn: &Turn) -> Vec<Note> {
    let ventilation = if turn.after.ventilation { "with" } else { "no" };
    let pause = grouped(turn.after.pause);
    let given = match turn.call {
        Call::Begin(begin) if begin.pause == 0 => " (given as 0)",
        _ => "",
    };
    let digital = if turn.after.digital {
        ", digital post"
    } else {
        ""
    };
    let list = match turn.list {
        1 => "a new list".to_string(),
        list => format!("list {list}"),
    };
    let words =
        format!("{list} begins: pause {pause} ms{given}, {ventilation} ventilation{digital}");
    let mut notes = vec![note(Kind::Event, words)];
    if turn.begun_while_closed() {
        notes.insert(
            0,
            note(Kind::Opened, "OPENED: by the new begin".to_string()),
        );
    }
    notes
}

/// The faults that this call latched, in their order, and why.
fn latched(turn: &Turn, notes: &mut Vec<Note>) {
    let all = Latched::of(&turn.after);
    for number in all.numbers() {
        let place = usize::from(number) - 1;
        if !turn.outcome.latched[place] {
            continue;
        }
        let why = match (place, turn.sample, turn.previous) {
            (0, Some(this), Ok(previous)) => both_off(&previous, &this, low_off),
            (1, _, _) => overrun_so_far(turn),
            _ if turn.before.faults[place] => "told again, keeps its place".to_string(),
            _ => "told".to_string(),
        };
        // An opening tells its faults, and of a bad diode its levels.
        let known = |note: &Note| note.words.contains(&why) || why == "told";
        if !(turn.outcome.opened && notes.iter().any(known)) {
            let behind = all.first_before(number);
            let behind = behind.map_or(String::new(), |first| format!(", behind {first}"));
            let words = format!("fault {number} ({}){behind}: {why}", fault(number));
            notes.push(note(Kind::Event, words));
        }
    }
}

/// Where a low level is bad.
pub const LOW_RULE: &str = "outside -13,000 to -11,000";

/// A level that is not where a rule wants it.
struct Off {
    name: &'static str,
    level: i32,
    rule: &'static str,
}

/// Why a sample has no diode: its low level.
fn low_off(sample: &Sample) -> Off {
    Off {
        name: "low",
        level: sample.low,
        rule: LOW_RULE,
    }
}

/// Why a sample is not sound: its high level, else its low one.
fn unsound(sample: &Sample) -> Off {
    let rule = match sample.high {
        ..=1_500 => "not above 1,500",
        7_500.. => "not below 7,500",
        _ => return low_off(sample),
    };
    Off {
        name: "high",
        level: sample.high,
        rule,
    }
}

/// What is off in two samples.
fn both_off(previous: &Sample, this: &Sample, off: fn(&Sample) -> Off) -> String {
    let (one, other) = (off(previous), off(this));
    let first = format!(
        "{} {} mV at {}",
        one.name,
        grouped(one.level),
        previous.time
    );
    let second = format!("{} mV at {}", grouped(other.level), this.time);
    match one.rule == other.rule {
        true => format!("{first} and {second} are {}", one.rule),
        false => format!(
            "{first} is {}, {} {second} is {}",
            one.rule, other.name, other.rule
        ),
    }
}

/// How long ago this was.
pub fn ago(start: Option<u64>, turn: &Turn) -> String {
    match start {
        Some(start) => format!("{} ms ago, at {start}", grouped(turn.after.last - start)),
        None => "in this call".to_string(),
    }
}

/// The causes that held, each with its number.
fn opened(turn: &Turn) -> String {
    let held = (0..5).filter(|&cause| turn.outcome.causes[cause]);
    let causes: Vec<String> = held
        .map(|cause| format!("{} ({})", because(turn, cause), NUMERALS[cause]))
        .collect();
    format!("OPENED: {}", causes.join("; "))
}

/// One cause in words, with its figures.
pub fn because(turn: &Turn, cause: usize) -> String {
    match (cause, turn.sample, turn.previous) {
        (0, Some(this), Ok(previous)) => {
            let kind = Unsound::of(&previous, &this);
            let off = if kind == Unsound::NoLow {
                low_off
            } else {
                unsound
            };
            format!(
                "two unsound samples in a row, {}: {}",
                kind.words(),
                both_off(&previous, &this, off)
            )
        }
        (1, _, _) => match turn.after.sound {
            Some(sound) => format!(
                "{} ms since the last sound sample",
                grouped(turn.after.last - sound)
            ),
            None => "no sound sample so far".to_string(),
        },
        (2, _, _) => "state D, and the post has no ventilation".to_string(),
        (3, _, _) => stopped(turn),
        (4, _, _) => format!("fault: {}", faults(&turn.after)),
        _ => "two unsound samples in a row".to_string(),
    }
}

/// The stop's age, and in a digital post what is too low at its end.
fn stopped(turn: &Turn) -> String {
    let mut words = vec![format!("the stop began {}", ago(turn.before.stop, turn))];
    if turn.after.digital {
        words.extend(too_low(&turn.after, true));
    }
    words.join(", and ")
}

/// What a closing rests on.
pub fn closed(turn: &Turn) -> String {
    let band = letter(turn.sample.and_then(|sample| sample.verdict.band));
    let samples = match (turn.previous, turn.sample) {
        (Ok(previous), Some(this)) => format!("{} and {}", previous.time, this.time),
        _ => String::new(),
    };
    let rest = match turn.before.opening {
        Some(opening) => format!(
            "{} ms after the opening at {opening}, pause {} ms",
            grouped(turn.after.last - opening),
            grouped(turn.after.pause)
        ),
        None => "not opened since begin".to_string(),
    };
    let grant = grant::shown(&turn.after, "; ");
    format!("CLOSED: proven in {band} at {samples}; {rest}{grant}")
}
