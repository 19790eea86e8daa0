//! The lines of a log, one by one as they are read.

use crate::record::Record;
use crate::text::{parse_line, Entry, Line};
use crate::wrong::Wrong;
use std::io::{self, BufRead};

/// A line that is not empty.
pub struct Read {
    /// What it says, or what is wrong with it.
    pub entry: Result<Entry, Wrong>,
    /// It ends in a line end. The last one may not: then it can be torn.
    pub ended: bool,
}

/// Reads a log line by line.
pub struct Reader<R> {
    input: R,
    /// The number of the last line.
    line: usize,
    bytes: Vec<u8>,
    /// A `told` may follow: since the last call there was none.
    called: bool,
}

impl<R: BufRead> Reader<R> {
    pub fn new(input: R) -> Reader<R> {
        Reader {
            input,
            line: 0,
            bytes: Vec::new(),
            called: false,
        }
    }

    /// Where it is read from.
    pub fn input(&self) -> &R {
        &self.input
    }

    /// The next line that is not empty; none at the end.
    #[allow(clippy::should_implement_trait)]
    pub fn next(&mut self) -> io::Result<Option<Read>> {
        self.bytes.clear();
        while self.input.read_until(b'\n', &mut self.bytes)? > 0 {
            let ended = self.bytes.last() == Some(&b'\n');
            if let Some(entry) = self.parse() {
                return Ok(Some(Read { entry, ended }));
            }
            self.bytes.clear();
        }
        Ok(None)
    }

    /// What stands in the line that was read.
    fn parse(&mut self) -> Option<Result<Entry, Wrong>> {
        self.line += 1;
        let line = self.line;
        let bytes = self.bytes.strip_suffix(b"\n").unwrap_or(&self.bytes);
        let bytes = bytes.strip_suffix(b"\r").unwrap_or(bytes);
        // The mark that some editors put before UTF-8; in the middle where two logs were joined.
        let bytes = bytes.strip_prefix(b"\xef\xbb\xbf").unwrap_or(bytes);
        let parsed = parse_line(line, bytes).transpose()?;
        let entry = parsed.and_then(|what| self.in_place(Entry { line, what }));
        self.called = match entry.as_ref().map(|entry| &entry.what) {
            Ok(Line::Call(_)) => true,
            Ok(Line::Record(Record::Told(_))) | Err(_) => false,
            // A contact may move while the post writes.
            Ok(Line::Comment(_) | Line::Record(_)) => self.called,
        };
        Some(entry)
    }

    /// A `told` stands right after its call.
    fn in_place(&self, entry: Entry) -> Result<Entry, Wrong> {
        match entry.what {
            Line::Record(Record::Told(_)) if !self.called => Err(Wrong {
                line: entry.line,
                what: "told without its call".to_string(),
                expected: "one told behind the call whose reply it tells",
            }),
            _ => Ok(entry),
        }
    }
}
