//! A log as text, one call a line, and back.
//!
//! Calls:
//!
//! ```text
//! begin TIME RATED PAUSE yes|no [digital|plain]      without a mark: plain
//! sample TIME HIGH LOW       256 readings, first half at HIGH, second half at LOW
//! window TIME r1 r2 ..       the readings one by one
//! limit TIME MA
//! measure TIME MA            one current: on line 1, and 0 on the others
//! measure TIME L1 L2 L3      the current on each line
//! link TIME MA               the current granted by link
//! fault TIME KIND
//! clear TIME
//! tick TIME
//! ```
//!
//! What the post recorded, for no controller; `-` in a `told` stands for what it did not keep:
//!
//! ```text
//! told STATE WAVE open|closed FAULT CLOSINGS [L1 L2 L3]      right after its call
//! contact TIME open|closed
//! panel TIME TEXT
//! clock TIME DATE            the same moment by the wall's clock, RFC 3339
//! travel MS                  the contact follows its command within MS
//! ```
//!
//! Values are whole numbers in digits, apart by spaces or tabs. What follows a `#` is a comment. Empty lines
//! are left out, and a line may end in CR LF.

use crate::call::Call;
use crate::reader::Reader;
use crate::record::{Record, Told};
use crate::wall::Wall;
use crate::window::Window;
use crate::wrong::{Wrong, WrongLines};
use chuldariin_model::Begin;
use std::fmt;
use std::str::{FromStr, SplitAsciiWhitespace};

/// Each word that a line may start with, and its form.
const FORMS: [(&str, &str); 14] = [
    ("begin", "begin TIME RATED PAUSE yes|no [digital|plain]"),
    ("sample", "sample TIME HIGH LOW"),
    ("window", "window TIME r1 r2 .."),
    ("limit", "limit TIME MA"),
    ("measure", "measure TIME MA or measure TIME L1 L2 L3"),
    ("link", "link TIME MA"),
    ("fault", "fault TIME KIND"),
    ("clear", "clear TIME"),
    ("tick", "tick TIME"),
    (
        "told",
        "told STATE WAVE open|closed FAULT CLOSINGS [L1 L2 L3], and - for what was not kept",
    ),
    ("contact", "contact TIME open|closed"),
    ("panel", "panel TIME TEXT"),
    (
        "clock",
        "clock TIME DATE, with a DATE like 2026-11-16T03:40:00Z",
    ),
    ("travel", "travel MS, 100 or more"),
];

const CALLS: &str = "begin, sample, window, limit, measure, link, fault, clear or tick, or a record: told, contact, panel, clock or travel";
const DIGITS: &str = "a whole number in digits alone, like 32000 or -12000";
const TEXT: &str = "text in UTF-8";
const ENDS: &str = "lines that end in LF or CR LF";

/// So much of a word is shown, in characters.
const SHOWN: usize = 24;
/// A contact that is not said to be slower follows its command within this time, ms.
pub const TRAVEL: u64 = 100;

/// A line of a log that is not empty.
#[derive(Clone, Debug, PartialEq, Eq)]
pub struct Entry {
    /// Its number, from 1.
    pub line: usize,
    pub what: Line,
}

#[derive(Clone, Debug, PartialEq, Eq)]
pub enum Line {
    Call(Call),
    /// What the post recorded.
    Record(Record),
    /// A comment that has its line for itself.
    Comment(String),
}

impl fmt::Display for Call {
    fn fmt(&self, f: &mut fmt::Formatter) -> fmt::Result {
        let word = self.word();
        match self {
            Call::Begin(b) => {
                let ventilation = if b.ventilation { "yes" } else { "no" };
                let mark = if b.digital { " digital" } else { "" };
                write!(
                    f,
                    "{word} {} {} {} {ventilation}{mark}",
                    b.time, b.rated, b.pause
                )
            }
            Call::Sample(time, window) => write_window(f, *time, window),
            Call::Limit(time, number)
            | Call::Measure(time, number)
            | Call::Link(time, number)
            | Call::Fault(time, number) => write!(f, "{word} {time} {number}"),
            Call::MeasureLines(time, [one, two, three]) => {
                write!(f, "{word} {time} {one} {two} {three}")
            }
            Call::Clear(time) | Call::Tick(time) => write!(f, "{word} {time}"),
        }
    }
}

fn write_window(f: &mut fmt::Formatter, time: u64, window: &Window) -> fmt::Result {
    match window {
        Window::Halves(high, low) => write!(f, "sample {time} {high} {low}"),
        Window::Readings(readings) => {
            write!(f, "window {time}")?;
            let mut readings = readings.iter();
            readings.try_for_each(|reading| write!(f, " {reading}"))
        }
    }
}

/// A list of calls as text.
pub fn print(calls: &[Call]) -> String {
    let mut text = String::new();
    for call in calls {
        text.push_str(&format!("{call}\n"));
    }
    text
}

/// The calls of a text, or what is wrong with it.
pub fn calls(text: &str) -> Result<Vec<Call>, WrongLines> {
    let call = |entry: Entry| match entry.what {
        Line::Call(call) => Some(call),
        _ => None,
    };
    Ok(parse(text.as_bytes())?
        .into_iter()
        .filter_map(call)
        .collect())
}

/// The lines of a text, or what is wrong with it.
pub fn parse(text: &[u8]) -> Result<Vec<Entry>, WrongLines> {
    let (mut entries, mut wrong) = (Vec::new(), WrongLines::default());
    let mut reader = Reader::new(text);
    // Memory can be read.
    while let Ok(Some(read)) = reader.next() {
        match read.entry {
            Ok(entry) => entries.push(entry),
            Err(mistake) => wrong.add(mistake),
        }
    }
    if wrong.first.is_empty() {
        Ok(entries)
    } else {
        Err(wrong)
    }
}

/// One line without its end; nothing if it is empty.
pub(crate) fn parse_line(line: usize, bytes: &[u8]) -> Result<Option<Line>, Wrong> {
    let wrong = |what: String, expected| Wrong {
        line,
        what,
        expected,
    };
    let text = std::str::from_utf8(bytes).map_err(|error| {
        let (place, byte) = (error.valid_up_to() + 1, bytes[error.valid_up_to()]);
        wrong(format!("byte {place} (0x{byte:02x}) is not UTF-8"), TEXT)
    })?;
    if text.contains('\r') {
        return Err(wrong("a CR that no LF follows".to_string(), ENDS));
    }
    let (said, comment) = match text.split_once('#') {
        Some((said, comment)) => (said, Some(comment)),
        None => (text, None),
    };
    let mut words = said.split_ascii_whitespace();
    match (words.next(), comment) {
        (Some(word), _) => parse_words(line, word, words, said).map(Some),
        (None, Some(comment)) => Ok(Some(Line::Comment(comment.trim().to_string()))),
        (None, None) => Ok(None),
    }
}

/// A call, or a record.
fn parse_words(
    line: usize,
    word: &str,
    words: SplitAsciiWhitespace,
    said: &str,
) -> Result<Line, Wrong> {
    let Some((_, form)) = FORMS.iter().find(|form| form.0 == word) else {
        let what = format!("{} is no call", quoted(word));
        return Err(Wrong {
            line,
            what,
            expected: CALLS,
        });
    };
    let mut values = Values { line, form, words };
    let what = match word {
        "told" => Line::Record(Record::Told(values.told()?)),
        "contact" => Line::Record(Record::Contact(values.number("TIME")?, values.contact()?)),
        "panel" => return Ok(Line::Record(values.panel(said)?)),
        "clock" => Line::Record(Record::Clock(values.number("TIME")?, values.date()?)),
        "travel" => Line::Record(Record::Travel(values.travel()?)),
        _ => Line::Call(values.call(word)?),
    };
    values.end()?;
    Ok(what)
}

/// The values of a call that are still to be read.
struct Values<'a> {
    line: usize,
    form: &'static str,
    words: SplitAsciiWhitespace<'a>,
}

impl<'a> Values<'a> {
    fn call(&mut self, word: &str) -> Result<Call, Wrong> {
        let time = self.number("TIME")?;
        Ok(match word {
            "begin" => Call::Begin(Begin {
                time,
                rated: self.number("RATED")?,
                pause: self.number("PAUSE")?,
                ventilation: self.yes_or_no()?,
                digital: self.mark()?,
            }),
            "sample" => Call::Sample(
                time,
                Window::Halves(self.number("HIGH")?, self.number("LOW")?),
            ),
            "window" => Call::Sample(time, self.readings()?.into()),
            "limit" => Call::Limit(time, self.number("MA")?),
            "measure" => self.measure(time)?,
            "link" => Call::Link(time, self.number("MA")?),
            "fault" => Call::Fault(time, self.number("KIND")?),
            "clear" => Call::Clear(time),
            "tick" => Call::Tick(time),
            _ => unreachable!("a form without its call"),
        })
    }

    fn wrong(&self, what: String, expected: &'static str) -> Wrong {
        Wrong {
            line: self.line,
            what,
            expected,
        }
    }

    fn next(&mut self, name: &str) -> Result<&'a str, Wrong> {
        match self.words.next() {
            Some(word) => Ok(word),
            None => Err(self.wrong(format!("{name} is missing"), self.form)),
        }
    }

    fn number<T: Whole>(&mut self, name: &str) -> Result<T, Wrong> {
        let word = self.next(name)?;
        number(word).ok_or_else(|| self.no_number::<T>(name, word))
    }

    /// Why a word is no number of this type.
    fn no_number<T: Whole>(&self, name: &str, word: &str) -> Wrong {
        let shown = quoted(word);
        let digits = word.strip_prefix('-').unwrap_or(word);
        let whole = !digits.is_empty() && digits.bytes().all(|byte| byte.is_ascii_digit());
        let what = match (whole, word.starts_with('-')) {
            (true, false) => format!("{name} {shown} is too large: the most is {}", T::MOST),
            (true, true) => format!("{name} {shown} is too small: the least is {}", T::LEAST),
            _ => format!("{name} {shown} is no number"),
        };
        self.wrong(what, if whole { self.form } else { DIGITS })
    }

    fn yes_or_no(&mut self) -> Result<bool, Wrong> {
        match self.next("yes|no (has the post ventilation?)")? {
            "yes" => Ok(true),
            "no" => Ok(false),
            other => Err(self.wrong(
                format!("{} is neither yes nor no", quoted(other)),
                self.form,
            )),
        }
    }

    /// The mark, if there is one: a begin without it is plain.
    fn mark(&mut self) -> Result<bool, Wrong> {
        match self.words.next() {
            None | Some("plain") => Ok(false),
            Some("digital") => Ok(true),
            Some(other) => Err(self.wrong(
                format!("{} is neither digital nor plain", quoted(other)),
                self.form,
            )),
        }
    }

    /// One current, or one for each line.
    fn measure(&mut self, time: u64) -> Result<Call, Wrong> {
        let first = self.number("MA")?;
        if self.words.clone().next().is_none() {
            return Ok(Call::Measure(time, first));
        }
        let lines = [first, self.number("L2")?, self.number("L3")?];
        Ok(Call::MeasureLines(time, lines))
    }

    /// What the post says that it was told.
    fn told(&mut self) -> Result<Told, Wrong> {
        let mut told = Told {
            state: self.kept("STATE", state)?,
            wave: self.kept("WAVE", number)?,
            closed: self.kept("open|closed", contact)?,
            fault: self.kept("FAULT", number)?,
            closings: self.kept("CLOSINGS", number)?,
            lines: [None; 3],
        };
        if self.words.clone().next().is_some() {
            let mut line = |name| self.kept(name, number);
            told.lines = [line("L1")?, line("L2")?, line("L3")?];
        }
        Ok(told)
    }

    /// A value that may be missing.
    fn kept<T>(
        &mut self,
        name: &str,
        read: impl Fn(&str) -> Option<T>,
    ) -> Result<Option<T>, Wrong> {
        let word = self.next(name)?;
        if word == "-" {
            return Ok(None);
        }
        let wrong = || self.wrong(format!("{} is no {name}", quoted(word)), self.form);
        read(word).map(Some).ok_or_else(wrong)
    }

    fn contact(&mut self) -> Result<bool, Wrong> {
        let word = self.next("open|closed")?;
        let wrong = || {
            self.wrong(
                format!("{} is neither open nor closed", quoted(word)),
                self.form,
            )
        };
        contact(word).ok_or_else(wrong)
    }

    /// The panel's words: the rest of the line, without the spaces around it.
    fn panel(&mut self, said: &str) -> Result<Record, Wrong> {
        let time = self.number("TIME")?;
        self.next("TEXT")?;
        let mut rest = said.trim_ascii();
        for _ in 0..2 {
            let end = rest.find(|c: char| c.is_ascii_whitespace());
            rest = end.map_or("", |end| rest[end..].trim_ascii_start());
        }
        Ok(Record::Panel(time, rest.to_string()))
    }

    fn date(&mut self) -> Result<Wall, Wrong> {
        let word = self.next("DATE")?;
        Wall::parse(word).map_err(|what| {
            let (what, _) = what.split_once("; expected").unwrap_or((&what, ""));
            self.wrong(format!("DATE {what}"), self.form)
        })
    }

    fn travel(&mut self) -> Result<u64, Wrong> {
        let millis = self.number("MS")?;
        let wrong = || self.wrong(format!("MS {millis} is below {TRAVEL}"), self.form);
        Some(millis)
            .filter(|millis| *millis >= TRAVEL)
            .ok_or_else(wrong)
    }

    fn readings(&mut self) -> Result<Vec<i32>, Wrong> {
        let mut readings = Vec::new();
        while let Some(word) = self.words.next() {
            let place = readings.len() + 1;
            readings.push(
                number(word)
                    .ok_or_else(|| self.no_number::<i32>(&format!("reading {place}"), word))?,
            );
        }
        Ok(readings)
    }

    /// Nothing may follow.
    fn end(mut self) -> Result<(), Wrong> {
        match self.words.next() {
            None => Ok(()),
            Some(word) => {
                Err(self.wrong(format!("{} is one value too many", quoted(word)), self.form))
            }
        }
    }
}

/// So many digits fit a signed number of 64 bits, whatever they are.
const FEW: usize = 18;

/// A number that is written in digits alone, but for the sign of one below 0.
fn number<T: Whole>(word: &str) -> Option<T> {
    let (below, digits) = match word.strip_prefix('-') {
        Some(digits) => (true, digits),
        None => (false, word),
    };
    let few = (1..=FEW).contains(&digits.len()) && digits.bytes().all(|byte| byte.is_ascii_digit());
    // Most numbers are short, and a log has millions of them.
    match few {
        true => {
            let add = |number: i64, byte: u8| number * 10 + i64::from(byte - b'0');
            let number = digits.bytes().fold(0, add);
            let is_minus_0 = below && number == 0 && T::IS_UNSIGNED;
            let number = if below { -number } else { number };
            T::try_from(number).ok().filter(|_| !is_minus_0)
        }
        false if word.starts_with('+') => None,
        false => word.parse().ok(),
    }
}

fn contact(word: &str) -> Option<bool> {
    match word {
        "open" => Some(false),
        "closed" => Some(true),
        _ => None,
    }
}

/// Letter and digit as a reply has them.
fn state(word: &str) -> Option<(u8, u8)> {
    match *word.as_bytes() {
        [letter @ (b'U' | b'E' | b'F')] => Some((letter, 0)),
        [letter @ b'A'..=b'D', digit @ (b'1' | b'2')] => Some((letter, digit - b'0')),
        _ => None,
    }
}

/// A whole number of a type with two ends.
trait Whole: FromStr + TryFrom<i64> + fmt::Display {
    const LEAST: Self;
    const MOST: Self;
    const IS_UNSIGNED: bool = true;
}

impl Whole for u8 {
    const LEAST: u8 = u8::MIN;
    const MOST: u8 = u8::MAX;
}

impl Whole for u32 {
    const LEAST: u32 = u32::MIN;
    const MOST: u32 = u32::MAX;
}

impl Whole for u64 {
    const LEAST: u64 = u64::MIN;
    const MOST: u64 = u64::MAX;
}

impl Whole for i32 {
    const LEAST: i32 = i32::MIN;
    const MOST: i32 = i32::MAX;
    const IS_UNSIGNED: bool = false;
}

/// A word between quotes, cut if it is long, with nothing in it that a terminal would obey.
fn quoted(word: &str) -> String {
    let shown: String = word
        .chars()
        .take(SHOWN)
        .flat_map(char::escape_debug)
        .collect();
    let cut = if word.chars().count() > SHOWN {
        ".."
    } else {
        ""
    };
    format!("'{shown}{cut}'")
}
