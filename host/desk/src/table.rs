//! The replay as a table: one aligned line a call.

use crate::case::Seen;
use crate::causes::{Kind, Note};
use crate::fold::{cut, visible, Place};
use crate::input::Shape;
use crate::paint::{Colour, Paint};
use crate::turn::Turn;
use crate::words::{call, grouped, letter, lines, reply_fault, wave};
use chuldariin::raw;
use chuldariin_log::record::{contact_word, state_word};
use chuldariin_log::Record;
use chuldariin_model::Verdict;
use std::io::{self, Write};

/// The widths of columns: a call, a sample, what a reply tells.
const CALL: usize = 24;
const SAMPLE: usize = 10;
const REPLY: usize = 5 + 2 + 16 + 2 + 9 + 2 + 19 + 2 + 8;
/// The column for the current on each line: 200,000 three times.
const LINES: usize = 23;
/// The column for the grant: its heading.
const GRANT: usize = 10;
/// The column for the wall's clock: a date with ms, in UTC.
const WALL: usize = 24;

/// Which columns there are, and how wide.
#[derive(Clone, Copy, Debug, PartialEq, Eq)]
struct Columns {
    line: usize,
    time: usize,
    /// The wall's clock is told.
    wall: bool,
    /// A begin is digital, so there is a column for the grant.
    digital: bool,
    /// A measure has a current for each line.
    three_lines: bool,
}

impl Columns {
    fn of(shape: &Shape) -> Columns {
        let list = match shape.lists {
            0 | 1 => 0,
            lists => lists.to_string().len() + 1,
        };
        Columns {
            line: shape.last_line.to_string().len().max(4),
            time: (shape.last_time.to_string().len() + list).max(5),
            wall: shape.wall,
            digital: shape.digital,
            three_lines: shape.three_lines,
        }
    }

    /// The width of all of them.
    fn width(&self) -> usize {
        let wall = if self.wall { WALL + 2 } else { 0 };
        let grant = if self.digital { GRANT + 2 } else { 0 };
        let lines = if self.three_lines { LINES + 2 } else { 0 };
        self.line + 2 + self.time + 2 + wall + CALL + 2 + SAMPLE + 2 + REPLY + grant + lines
    }
}

/// Writes the lines of a replay.
pub struct Table {
    paint: Paint,
    /// The width of the terminal.
    width: Option<usize>,
    shape: Shape,
    columns: Columns,
    headed: bool,
    row: String,
    /// The last reply that was written, and its columns.
    reply: Option<(raw::Reply, String)>,
    /// The columns of the last reply: in their order, with colours; and on a narrow terminal, before and after the sample.
    painted: String,
    narrow: [String; 2],
}

impl Table {
    /// For a log of this shape; of a stream it is not known yet, and grows.
    pub fn new(shape: Shape, paint: Paint, width: Option<usize>) -> Table {
        Table {
            paint,
            width,
            columns: Columns::of(&shape),
            shape,
            headed: false,
            row: String::new(),
            reply: None,
            painted: String::new(),
            narrow: [String::new(), String::new()],
        }
    }

    /// A line that is to be shown soon: it may bring a column.
    pub fn see(&mut self, entry: &chuldariin_log::Entry) {
        self.shape.see(entry);
        let columns = Columns::of(&self.shape);
        let (before, after) = (self.columns, columns);
        // Wider columns go on as they are; others get a heading of their own.
        self.headed &= (before.wall, before.digital, before.three_lines)
            == (after.wall, after.digital, after.three_lines);
        self.columns = columns;
    }

    pub fn heading(&mut self, out: &mut impl Write) -> io::Result<()> {
        if std::mem::replace(&mut self.headed, true) {
            return Ok(());
        }
        let optional = |there: bool, text: String| if there { text } else { String::new() };
        let columns = &self.columns;
        let wall = optional(columns.wall, format!("{:<WALL$}  ", "wall clock"));
        let grant = optional(columns.digital, format!("  {:>GRANT$}", "grant (mA)"));
        let lines = optional(
            columns.three_lines,
            format!("  {:<LINES$}", "lines 1, 2, 3 (mA)"),
        );
        let sample = format!("{:<SAMPLE$}", "sample");
        let names = ["state", "wave", "contactor", "fault", "closings"];
        let reply = match self.is_narrow() {
            false => format!("{sample}  {}", in_order(names)),
            true => {
                let [before, after] = narrow(names);
                format!("{before}  {sample}  {after}")
            }
        };
        let text = format!(
            "{:>line$}  {:>time$}  {wall}{:<CALL$}  {reply}{grant}{lines}  what happened",
            "line",
            "ms",
            "call",
            line = columns.line,
            time = columns.time,
        );
        let text = cut(&text, self.width);
        writeln!(out, "{}", self.paint.bold(text))
    }

    pub fn comment(&mut self, out: &mut impl Write, text: &str) -> io::Result<()> {
        self.heading(out)?;
        let place = Place::behind(4, self.width);
        let text = safe(text);
        for (number, line) in place.fold(&text).into_iter().enumerate() {
            let mark = if number == 0 { "# " } else { "#   " };
            writeln!(out, "{}", self.paint.dim(&format!("{mark}{line}")))?;
        }
        Ok(())
    }

    /// A call with its reply and what happened.
    pub fn row(
        &mut self,
        out: &mut impl Write,
        seen: &Seen,
        turn: &Turn,
        notes: &[Note],
    ) -> io::Result<()> {
        self.heading(out)?;
        self.front(seen, &call(turn));
        self.reply_columns(turn);
        let [before, after] = match self.is_narrow() {
            true => [self.narrow[0].as_str(), self.narrow[1].as_str()],
            false => ["", self.painted.as_str()],
        };
        if !before.is_empty() {
            self.row.push_str(before);
            self.row.push_str("  ");
        }
        pad(&mut self.row, &verdict(turn), SAMPLE);
        self.row.push_str("  ");
        self.row.push_str(after);
        if self.columns.digital {
            let grant = shown_grant(turn);
            self.row.push_str("  ");
            right(&mut self.row, &grant, GRANT);
        }
        if self.columns.three_lines {
            self.row.push_str("  ");
            pad(&mut self.row, &shown_lines(turn), LINES);
        }
        self.end(out, notes)
    }

    /// Not all columns have room, so the contactor comes first, and colours, which do not go with a cut, are left out.
    fn is_narrow(&self) -> bool {
        self.width.is_some_and(|width| self.columns.width() > width)
    }

    /// A line that is no call: what the post recorded, or what was left out.
    pub fn record(
        &mut self,
        out: &mut impl Write,
        seen: &Seen,
        words: &str,
        notes: &[Note],
    ) -> io::Result<()> {
        self.heading(out)?;
        self.front(seen, words);
        self.end(out, notes)
    }

    /// A line that was left out.
    pub fn bad(&mut self, out: &mut impl Write, line: usize, note: Note) -> io::Result<()> {
        self.heading(out)?;
        self.row.clear();
        right(&mut self.row, &line.to_string(), self.columns.line);
        self.end(out, &[note])
    }

    /// Line, time and call.
    fn front(&mut self, seen: &Seen, call: &str) {
        self.row.clear();
        right(&mut self.row, &seen.line.to_string(), self.columns.line);
        self.row.push_str("  ");
        right(
            &mut self.row,
            &seen.moment.shown(seen.moment.list),
            self.columns.time,
        );
        self.row.push_str("  ");
        if self.columns.wall {
            let wall = seen.wall.map_or(String::new(), |wall| wall.to_string());
            pad(&mut self.row, &wall, WALL);
            self.row.push_str("  ");
        }
        pad(&mut self.row, call, CALL);
        self.row.push_str("  ");
    }

    /// What the reply tells; the same as before it is made once.
    fn reply_columns(&mut self, turn: &Turn) {
        let reply = raw::Reply {
            refusal: u8::from(turn.tells_nothing()),
            lines: raw::Lines {
                line1: 0,
                line2: 0,
                line3: 0,
            },
            ..turn.reply
        };
        let fault = reply_fault(turn);
        if self
            .reply
            .as_ref()
            .is_some_and(|last| last.0 == reply && last.1 == fault)
        {
            return;
        }
        let (state, wave) = (state_word(reply.letter, reply.digit), wave(reply.wave));
        let closings = reply.closings.to_string();
        let cells = match turn.tells_nothing() {
            true => ["-"; 5],
            false => [&state, &wave, contact_word(reply.closed), &fault, &closings],
        };
        self.narrow = narrow(cells);
        self.painted = self.painted(cells, reply.closed);
        self.reply = Some((reply, fault));
    }

    fn painted(&self, cells: [&str; 5], closed: bool) -> String {
        let [state, wave, contactor, fault, closings] = cells;
        let contactor = format!("{contactor:<9}");
        let contactor = match closed {
            true => self.paint.colour(Colour::Green, &contactor),
            false => contactor,
        };
        let fault = self.paint.colour(Colour::Red, &format!("{fault:<19}"));
        format!("{state:<5}  {wave:<16}  {contactor}  {fault}  {closings:>8}")
    }

    /// What happened, behind the columns or below them.
    fn end(&mut self, out: &mut impl Write, notes: &[Note]) -> io::Result<()> {
        let columns = self.columns.width();
        let place = Place::behind(columns + 2, self.width);
        // A panel may say more than its column has room for.
        let row = match visible(&self.row) > self.width.unwrap_or(usize::MAX) {
            true => cut(&self.row, self.width),
            false => &self.row,
        };
        // Nothing is written behind the last word.
        match notes.is_empty() {
            true => writeln!(out, "{}", row.trim_end()),
            false if place.below => {
                writeln!(out, "{}", row.trim_end())?;
                self.folded(out, notes, place, place.indent)
            }
            false => {
                let gap = (columns + 2).saturating_sub(visible(row));
                write!(out, "{row}{:gap$}", "")?;
                self.notes(out, notes, place)
            }
        }
    }

    fn notes(&self, out: &mut impl Write, notes: &[Note], place: Place) -> io::Result<()> {
        if place.width.is_some() {
            return self.folded(out, notes, place, 0);
        }
        for (number, note) in notes.iter().enumerate() {
            let apart = if number == 0 { "" } else { "; " };
            write!(out, "{apart}{}", self.note(note.kind, &marked(note)))?;
        }
        writeln!(out)
    }

    /// Each note from a line of its own on; the first so far in.
    fn folded(
        &self,
        out: &mut impl Write,
        notes: &[Note],
        place: Place,
        first: usize,
    ) -> io::Result<()> {
        let words: Vec<(Kind, String)> =
            notes.iter().map(|note| (note.kind, marked(note))).collect();
        let lines = words.iter().flat_map(|(kind, words)| {
            let lines = place.fold(words).into_iter();
            lines.map(|line| self.note(*kind, line))
        });
        for (number, line) in lines.enumerate() {
            let indent = if number == 0 { first } else { place.indent };
            writeln!(out, "{:indent$}{line}", "")?;
        }
        Ok(())
    }

    fn note(&self, kind: Kind, words: &str) -> String {
        match kind {
            Kind::Closed => self.paint.colour(Colour::Green, words),
            Kind::Opened | Kind::Warned => self.paint.colour(Colour::Red, words),
            Kind::Refused => self.paint.colour(Colour::Yellow, words),
            Kind::Event => words.to_string(),
        }
    }
}

/// A note with what marks it in a text without colours.
fn marked(note: &Note) -> String {
    match note.kind {
        Kind::Closed => format!(">> {}", note.words),
        Kind::Opened => format!("<< {}", note.words),
        Kind::Warned => format!("!! {}", note.words),
        Kind::Refused | Kind::Event => note.words.clone(),
    }
}

/// What a reply tells, column by column.
fn in_order([state, wave, contactor, fault, closings]: [&str; 5]) -> String {
    format!("{state:<5}  {wave:<16}  {contactor:<9}  {fault:<19}  {closings:>8}")
}

/// The same on a narrow terminal, before the sample and after it: the contactor tells whether the van is supplied.
fn narrow([state, wave, contactor, fault, closings]: [&str; 5]) -> [String; 2] {
    [
        format!("{contactor:<9}  {state:<5}  {wave:<16}"),
        format!("{fault:<19}  {closings:>8}"),
    ]
}

/// A text, and spaces up to a width.
fn pad(row: &mut String, text: &str, width: usize) {
    row.push_str(text);
    let length = if text.is_ascii() {
        text.len()
    } else {
        text.chars().count()
    };
    row.extend(std::iter::repeat_n(' ', width.saturating_sub(length)));
}

/// Spaces up to a width, and a text.
fn right(row: &mut String, text: &str, width: usize) {
    row.extend(std::iter::repeat_n(' ', width.saturating_sub(text.len())));
    row.push_str(text);
}

/// The current on each line, as the reply shows it.
fn shown_lines(turn: &Turn) -> String {
    match turn.tells_nothing() {
        true => "-".to_string(),
        false => lines(turn.reply.lines.each()),
    }
}

/// The grant that the controller keeps: no reply shows it, and a plain post has none.
fn shown_grant(turn: &Turn) -> String {
    match turn.tells_nothing() || !turn.after.digital {
        true => "-".to_string(),
        false => grouped(turn.after.grant),
    }
}

/// What a sample shows: its band and a word. Unsound is said only where it counts, with the contactor closed.
fn verdict(turn: &Turn) -> String {
    let Some(sample) = turn.sample else {
        return String::new();
    };
    let band = match sample.verdict.band {
        None => "-",
        band => letter(band),
    };
    match verdict_word(turn) {
        "" => band.to_string(),
        word => format!("{band} {word}"),
    }
}

/// The verdict on a sample in a word, or nothing.
pub fn verdict_word(turn: &Turn) -> &'static str {
    match turn.sample.map(|sample| sample.verdict) {
        None => "",
        Some(Verdict { proven: true, .. }) => "proven",
        Some(Verdict {
            diode_bad: true, ..
        }) => "no diode",
        Some(Verdict { sound: true, .. }) => "sound",
        Some(_) if turn.before.closed => "unsound",
        Some(_) => "",
    }
}

/// A record as a row shows it.
pub fn record_words(record: &Record) -> String {
    match record {
        Record::Told(_) => "told".to_string(),
        Record::Contact(_, closed) => format!("contact {}", contact_word(*closed)),
        Record::Panel(_, text) => format!("panel {}", safe(text)),
        Record::Clock(_, wall) => format!("clock {wall}"),
        Record::Travel(millis) => format!("travel {} ms", grouped(*millis)),
    }
}

/// A text with nothing in it that a terminal would obey.
pub fn safe(text: &str) -> String {
    let safe = |c: char| {
        if c.is_control() && c != '\t' {
            '\u{fffd}'
        } else {
            c
        }
    };
    text.chars().map(safe).collect()
}
