//! A line of a log as a row of data.

use crate::case::{Seen, What};
use crate::causes::Note;
use crate::contact::Event;
use crate::data::{Rows, Value};
use crate::latched::Latched;
use crate::recorded::Difference;
use crate::table::verdict_word;
use crate::turn::Turn;
use crate::unsound::Unsound;
use crate::words::{letter, NUMERALS};
use chuldariin::{reading, Reading};
use chuldariin_log::record::{contact_word, state_word};
use chuldariin_log::{Entry, Line, Window};
use std::io::{self, Write};

/// The fields of a row, in their order.
pub const FIELDS: [&str; 32] = [
    "file",
    "line",
    "list",
    "time",
    "wall",
    "what",
    "text",
    "refusal",
    "state",
    "wave",
    "announced",
    "contactor",
    "fault",
    "faults",
    "closings",
    "line1",
    "line2",
    "line3",
    "grant",
    "high",
    "low",
    "band",
    "verdict",
    "event",
    "causes",
    "unsound",
    "silence",
    "differences",
    "contact",
    "contact_fails",
    "contact_ms",
    "notes",
];

/// Writes a call or a record. A comment is none.
pub fn row(
    rows: &mut Rows,
    file: &str,
    entry: &Entry,
    seen: &Seen,
    notes: &[Note],
    out: &mut impl Write,
) -> io::Result<()> {
    let what = match &entry.what {
        Line::Comment(_) => return Ok(()),
        Line::Call(call) => call.word(),
        Line::Record(record) => record.word(),
    };
    rows.field("file", Value::Text(file));
    rows.field("line", Value::number(entry.line as u64));
    rows.field("list", Value::number(seen.moment.list));
    rows.field("time", Value::number(seen.moment.time));
    let wall = seen.wall.map_or(String::new(), |wall| wall.to_string());
    rows.field("wall", Value::owned(wall));
    rows.field("what", Value::Text(what));
    rows.field("text", Value::owned(text(entry)));
    let turn = match &seen.what {
        What::Call(turn) => Some(turn.as_ref()),
        _ => None,
    };
    reply(rows, turn);
    sample(rows, turn);
    happened(rows, turn);
    recorded(rows, seen);
    let words: Vec<&str> = notes.iter().map(|note| note.words.as_str()).collect();
    rows.field("notes", Value::owned(words.join("; ")));
    rows.end(out)
}

/// The line as a log has it; of a window how many readings.
fn text(entry: &Entry) -> String {
    match &entry.what {
        Line::Call(chuldariin_log::Call::Sample(time, window @ Window::Readings(_))) => {
            format!("window {time} of {} readings", window.length())
        }
        Line::Call(call) => call.to_string(),
        Line::Record(record) => record.to_string(),
        Line::Comment(_) => String::new(),
    }
}

/// What the reply tells; nothing beside a refused begin.
fn reply(rows: &mut Rows, turn: Option<&Turn>) {
    rows.field("refusal", Value::maybe(turn.map(|turn| turn.reply.refusal)));
    let told = turn.filter(|turn| !turn.tells_nothing());
    let reply = told.map(|turn| turn.reply);
    let state = reply.map_or(String::new(), |reply| state_word(reply.letter, reply.digit));
    rows.field("state", Value::owned(state));
    rows.field("wave", Value::maybe(reply.map(|reply| reply.wave)));
    let announced = reply.and_then(|reply| match reading(reply.wave) {
        Ok(Reading::Current(current)) => Some(current.0),
        _ => None,
    });
    rows.field("announced", Value::maybe(announced));
    let contactor = reply.map_or("", |reply| contact_word(reply.closed));
    rows.field("contactor", Value::text(contactor));
    rows.field("fault", Value::maybe(reply.map(|reply| reply.fault)));
    let faults = told.map_or(String::new(), |turn| {
        let numbers = Latched::of(&turn.after)
            .numbers()
            .map(|number| number.to_string());
        numbers.collect::<Vec<String>>().join(" ")
    });
    rows.field("faults", Value::owned(faults));
    rows.field("closings", Value::maybe(reply.map(|reply| reply.closings)));
    let lines = reply.map(|reply| reply.lines.each());
    for (place, name) in ["line1", "line2", "line3"].into_iter().enumerate() {
        rows.field(name, Value::maybe(lines.map(|lines| lines[place])));
    }
    let grant = told.filter(|turn| turn.after.digital);
    rows.field("grant", Value::maybe(grant.map(|turn| turn.after.grant)));
}

/// The levels of an accepted sample.
fn sample(rows: &mut Rows, turn: Option<&Turn>) {
    let sample = turn.and_then(|turn| turn.sample);
    rows.field("high", Value::maybe(sample.map(|sample| sample.high)));
    rows.field("low", Value::maybe(sample.map(|sample| sample.low)));
    let band = sample.and_then(|sample| sample.verdict.band);
    let band = band.map_or("", |band| letter(Some(band)));
    rows.field("band", Value::text(band));
    rows.field("verdict", Value::text(turn.map_or("", verdict_word)));
}

/// A closing or an opening, with its causes.
fn happened(rows: &mut Rows, turn: Option<&Turn>) {
    let event = turn.map_or("", |turn| {
        match (turn.outcome.closing, turn.outcome.opened) {
            (true, _) => "closed",
            (_, true) => "opened",
            _ if turn.begun_while_closed() => "opened",
            _ => "",
        }
    });
    rows.field("event", Value::text(event));
    let opened = turn.filter(|turn| turn.outcome.opened);
    let causes = opened.map_or(String::new(), |turn| {
        let held = (0..5).filter(|&cause| turn.outcome.causes[cause]);
        let numerals: Vec<&str> = held.map(|cause| NUMERALS[cause]).collect();
        numerals.join(" ")
    });
    rows.field("causes", Value::owned(causes));
    let unsound = opened.and_then(Unsound::behind);
    rows.field("unsound", Value::text(unsound.map_or("", Unsound::words)));
    let silence = turn.and_then(|turn| turn.silence);
    rows.field("silence", Value::maybe(silence.map(|silence| silence.long)));
}

/// What the post recorded, against what was commanded.
fn recorded(rows: &mut Rows, seen: &Seen) {
    let differences = match &seen.what {
        What::Told(_, Some(differences)) => {
            let words: Vec<String> = differences.iter().map(Difference::words).collect();
            words.join("; ")
        }
        _ => String::new(),
    };
    rows.field("differences", Value::owned(differences));
    let (state, fails, long) = match seen.contact {
        Some(Event::Moves(_)) => ("moves", "", None),
        Some(Event::Fails(failing, long)) => ("fails", failing.fails.words(), Some(long)),
        Some(Event::Ends(failing, long)) => ("ends", failing.fails.words(), Some(long)),
        None => ("", "", None),
    };
    rows.field("contact", Value::text(state));
    rows.field("contact_fails", Value::owned(fails.to_lowercase()));
    rows.field("contact_ms", Value::maybe(long));
}
