//! The command `summary`: one row a log.

use crate::data::{Format, Rows, Value};
use crate::lists::Moment;
use crate::many::{Replayed, Whole};
use crate::summary::{Records, Summary, Switching};
use crate::words::{grouped, NUMERALS, REFUSALS};
use chuldariin_log::record::contact_word;
use std::io::{self, Write};

/// The fields of a row, in their order.
pub const FIELDS: [&str; 35] = [
    "file",
    "error",
    "begins",
    "calls",
    "refused",
    "refusals",
    "closings",
    "openings",
    "opened_i",
    "opened_ii",
    "opened_iii",
    "opened_iv",
    "opened_v",
    "opened_begin",
    "opened_trouble",
    "span",
    "closed",
    "spacing",
    "spacing_pause",
    "silences",
    "silence_longest",
    "told",
    "told_differ",
    "contact_moved",
    "welded",
    "welded_longest",
    "not_closing",
    "not_closing_longest",
    "from_wall",
    "to_wall",
    "end",
    "end_refused",
    "bad_lines",
    "before_begin",
    "cut",
];

/// Writes one row a log.
pub fn print(logs: &[Replayed], format: Format, out: &mut impl Write) -> io::Result<()> {
    if format == Format::Text {
        return text(logs, out);
    }
    let mut rows = Rows::new(format, &FIELDS, true);
    for log in logs {
        rows.field("file", Value::Text(&log.name));
        let error = log
            .whole
            .as_ref()
            .err()
            .map_or(String::new(), |error| error.to_string());
        rows.field("error", Value::owned(error));
        row(&mut rows, log.whole.as_ref().ok());
        rows.end(out)?;
    }
    Ok(())
}

fn row(rows: &mut Rows, whole: Option<&Whole>) {
    counts(rows, whole);
    times(rows, whole);
    recorded(rows, whole);
    ends(rows, whole);
}

/// Calls, closings and openings.
fn counts(rows: &mut Rows, whole: Option<&Whole>) {
    let summary = whole.map(|log| &log.summary);
    let switching = summary.map(|summary| &summary.switching);
    rows.field("begins", Value::maybe(summary.map(|summary| summary.lists)));
    rows.field("calls", Value::maybe(summary.map(|summary| summary.calls)));
    rows.field("refused", Value::maybe(summary.map(Summary::refused)));
    let refusals = summary.map_or(String::new(), refusals);
    rows.field("refusals", Value::owned(refusals));
    let count = |get: fn(&Switching) -> u64| Value::maybe(switching.map(get));
    rows.field("closings", count(|switching| switching.closings));
    rows.field("openings", count(Switching::all_openings));
    for (cause, numeral) in NUMERALS.into_iter().enumerate() {
        let opened = switching.map(|switching| switching.causes[cause]);
        rows.field(&format!("opened_{numeral}"), Value::maybe(opened));
    }
    rows.field("opened_begin", count(|switching| switching.by_begin));
    rows.field("opened_trouble", count(|switching| switching.troubled));
}

/// How long: all of it, closed, between closings, silent.
fn times(rows: &mut Rows, whole: Option<&Whole>) {
    let summary = whole.map(|log| &log.summary);
    let time = |get: fn(&Summary) -> u64| Value::maybe(summary.map(get));
    rows.field("span", time(|summary| summary.long));
    rows.field("closed", time(|summary| summary.switching.closed));
    let spacing = summary.and_then(|summary| summary.switching.shortest);
    let apart = spacing.map(|spacing| spacing.apart());
    rows.field("spacing", Value::maybe(apart));
    let pause = spacing.map(|spacing| spacing.pause);
    rows.field("spacing_pause", Value::maybe(pause));
    rows.field("silences", time(|summary| summary.silences.count));
    rows.field("silence_longest", time(Summary::longest_silence));
}

/// What the post recorded, against what was commanded.
fn recorded(rows: &mut Rows, whole: Option<&Whole>) {
    let records = whole.map(|log| &log.summary.records);
    let count = |get: fn(&Records) -> u64| Value::maybe(records.map(get));
    rows.field("told", count(|records| records.told));
    rows.field("told_differ", count(|records| records.differ));
    rows.field("contact_moved", count(|records| records.moved));
    rows.field("welded", count(|records| records.welded.0));
    rows.field("welded_longest", count(|records| records.welded.1));
    rows.field("not_closing", count(|records| records.not_closing.0));
    rows.field(
        "not_closing_longest",
        count(|records| records.not_closing.1),
    );
}

/// Where it starts and ends, and what was left out.
fn ends(rows: &mut Rows, whole: Option<&Whole>) {
    let wall = |end: fn((Moment, Moment)) -> Moment| {
        let wall = whole.and_then(|log| log.lists.wall(end(log.summary.span?)));
        Value::owned(wall.map_or(String::new(), |wall| wall.to_string()))
    };
    rows.field("from_wall", wall(|span| span.0));
    rows.field("to_wall", wall(|span| span.1));
    let held = whole.and_then(|log| log.summary.held);
    rows.field(
        "end",
        Value::text(held.map_or("", |held| contact_word(held.1))),
    );
    let number = |get: fn(&Whole) -> u64| Value::maybe(whole.map(get));
    rows.field("end_refused", number(|log| log.summary.refused_now));
    rows.field("bad_lines", number(|log| log.damage.bad_lines()));
    rows.field("before_begin", number(|log| log.damage.before_begin));
    let cut = whole.and_then(|log| log.damage.cut.as_deref());
    rows.field("cut", Value::text(cut.unwrap_or("")));
}

/// Each number with its count: `2:1 13:3`.
fn refusals(summary: &Summary) -> String {
    let counts = REFUSALS
        .iter()
        .map(|(number, _)| (number, summary.refusals[*number]));
    let counts = counts.filter(|count| count.1 > 0);
    let words: Vec<String> = counts
        .map(|(number, count)| format!("{number}:{count}"))
        .collect();
    words.join(" ")
}

const HEADING: [&str; 13] = [
    "begins",
    "calls",
    "refused",
    "closings",
    "openings",
    "i,ii,iii,iv,v",
    "trouble",
    "closed (ms)",
    "spacing (pause)",
    "silence (ms)",
    "differ",
    "contact",
    "file",
];

fn text(logs: &[Replayed], out: &mut impl Write) -> io::Result<()> {
    let cells: Vec<Vec<String>> = logs.iter().map(cells).collect();
    let width = |column: usize| {
        let widths = cells
            .iter()
            .filter_map(|row| row.get(column))
            .map(String::len);
        widths.chain([HEADING[column].len()]).max().unwrap_or(0)
    };
    let widths: Vec<usize> = (0..HEADING.len() - 1).map(width).collect();
    let line = |row: &[&str]| {
        let columns = row
            .iter()
            .zip(&widths)
            .map(|(cell, width)| format!("{cell:>width$}"));
        columns.collect::<Vec<String>>().join("  ")
    };
    let (file, heading) = (HEADING[HEADING.len() - 1], &HEADING[..HEADING.len() - 1]);
    writeln!(out, "{}  {file}", line(heading))?;
    for (log, row) in logs.iter().zip(&cells) {
        let row: Vec<&str> = row.iter().map(String::as_str).collect();
        match &log.whole {
            Ok(whole) => writeln!(out, "{}  {}{}", line(&row), log.name, remark(whole))?,
            Err(error) => {
                let first = error.to_string();
                let first = first.lines().next().unwrap_or("").to_string();
                writeln!(out, "NOT REPLAYED  {}: {first}", log.name)?;
            }
        }
    }
    Ok(())
}

/// What the numbers of a row do not tell.
fn remark(whole: &Whole) -> &'static str {
    let damage = &whole.damage;
    let is_left_out = damage.bad_lines() + damage.before_begin > 0;
    match whole.summary.lists {
        0 => " (no begin was accepted)",
        _ if damage.cut.is_some() => " (not read to its end)",
        _ if is_left_out => " (lines left out)",
        _ => "",
    }
}

fn cells(log: &Replayed) -> Vec<String> {
    let Ok(whole) = &log.whole else {
        return Vec::new();
    };
    let (summary, switching) = (&whole.summary, &whole.summary.switching);
    let spacing = switching.shortest.map_or("-".to_string(), |spacing| {
        format!("{} ({})", grouped(spacing.apart()), grouped(spacing.pause))
    });
    let causes = match switching.openings {
        0 => "-".to_string(),
        _ => switching.causes.map(|count| count.to_string()).join(","),
    };
    let records = &summary.records;
    let differ = if records.told > 0 {
        grouped(records.differ)
    } else {
        "-".to_string()
    };
    let contact = match records.contacts {
        0 => "-".to_string(),
        _ => grouped(records.contact()),
    };
    vec![
        grouped(summary.lists),
        grouped(summary.calls),
        grouped(summary.refused()),
        grouped(switching.closings),
        grouped(switching.all_openings()),
        causes,
        grouped(switching.troubled),
        grouped(switching.closed),
        spacing,
        grouped(summary.longest_silence()),
        differ,
        contact,
    ]
}
