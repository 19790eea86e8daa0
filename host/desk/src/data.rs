//! Rows of data for other programs: CSV (RFC 4180), or JSON, one object a line. The fields of a kind of row are always
//! the same, in the same order; docs/REPLAY.md lists them.

use std::fmt::Write as _;
use std::io::{self, Write};

/// How a replay or a summary is written.
#[derive(Clone, Copy, Debug, PartialEq, Eq)]
pub enum Format {
    Text,
    Csv,
    Json,
}

impl Format {
    pub fn parse(word: &str) -> Option<Format> {
        match word {
            "text" => Some(Format::Text),
            "csv" => Some(Format::Csv),
            "json" => Some(Format::Json),
            _ => None,
        }
    }
}

/// The value of a field.
pub enum Value<'a> {
    None,
    Number(i128),
    Text(&'a str),
    Owned(String),
}

impl Value<'_> {
    pub fn number(number: impl Into<i128>) -> Value<'static> {
        Value::Number(number.into())
    }

    pub fn maybe(number: Option<impl Into<i128>>) -> Value<'static> {
        number.map_or(Value::None, Value::number)
    }

    /// A text, or nothing if it is empty.
    pub fn text(text: &str) -> Value<'_> {
        match text {
            "" => Value::None,
            _ => Value::Text(text),
        }
    }

    pub fn owned(text: String) -> Value<'static> {
        match text.is_empty() {
            true => Value::None,
            false => Value::Owned(text),
        }
    }
}

/// Writes rows of one kind.
pub struct Rows {
    format: Format,
    row: String,
    /// The names of the fields, as long as they have to be written.
    heading: Option<&'static [&'static str]>,
}

impl Rows {
    /// Rows of CSV start with a heading.
    pub fn new(format: Format, fields: &'static [&'static str], headed: bool) -> Rows {
        Rows {
            format,
            row: String::new(),
            heading: (headed && format == Format::Csv).then_some(fields),
        }
    }

    /// The heading, which also stands above no row at all.
    pub fn start(&mut self, out: &mut impl Write) -> io::Result<()> {
        match self.heading.take() {
            Some(fields) => write!(out, "{}\r\n", fields.join(",")),
            None => Ok(()),
        }
    }

    pub fn field(&mut self, name: &str, value: Value) {
        match self.format {
            Format::Json => {
                self.row
                    .push_str(if self.row.is_empty() { "{" } else { "," });
                json_text(&mut self.row, name);
                self.row.push(':');
                write_value(&mut self.row, &value, "null", json_text);
            }
            _ => {
                // A mark in front, so that an empty first field is one, too.
                self.row.push(',');
                write_value(&mut self.row, &value, "", csv_text);
            }
        }
    }

    /// The row is whole.
    pub fn end(&mut self, out: &mut impl Write) -> io::Result<()> {
        self.start(out)?;
        match self.format {
            Format::Json => writeln!(out, "{}}}", self.row)?,
            _ => write!(out, "{}\r\n", &self.row[1..])?,
        }
        self.row.clear();
        Ok(())
    }
}

/// Writes a value; texts, and what is none, have their own form.
fn write_value(row: &mut String, value: &Value, none: &str, text: fn(&mut String, &str)) {
    match value {
        Value::None => row.push_str(none),
        // Writing to a string does not fail.
        Value::Number(number) => {
            let _ = write!(row, "{number}");
        }
        Value::Text(words) => text(row, words),
        Value::Owned(words) => text(row, words),
    }
}

fn json_text(row: &mut String, text: &str) {
    row.push('"');
    for c in text.chars() {
        match c {
            '"' => row.push_str("\\\""),
            '\\' => row.push_str("\\\\"),
            '\t' => row.push_str("\\t"),
            '\u{0}'..='\u{1f}' | '\u{7f}'..='\u{9f}' => {
                let _ = write!(row, "\\u{:04x}", u32::from(c));
            }
            c => row.push(c),
        }
    }
    row.push('"');
}

fn csv_text(row: &mut String, text: &str) {
    match text.contains([',', '"', '\r', '\n']) {
        false => row.push_str(text),
        true => {
            row.push('"');
            row.push_str(&text.replace('"', "\"\""));
            row.push('"');
        }
    }
}
