//! A log that can be replayed, or what is wrong with it.

use crate::source::{Input, Source};
use chuldariin_log::{Call, Entry, Line, Reader, Wrong, WrongLines};
use chuldariin_model::begin;
use std::fmt;
use std::io::{self, BufRead};

/// Why a log is not replayed. Shown, it says what to do.
#[derive(Debug)]
pub enum Unfit {
    /// What the system says of the file.
    Unread(io::Error),
    /// Two bytes a character.
    Utf16,
    /// By gzip, and its name does not say so.
    Packed,
    Lines(WrongLines),
    /// No call at all.
    Empty,
    /// The line of the first call, which is no begin, and its word.
    NoBegin(usize, &'static str),
    /// The picture would be written over the log.
    Overwritten(String),
    /// Any of these, of a file.
    Of(String, Box<Unfit>),
}

impl fmt::Display for Unfit {
    fn fmt(&self, f: &mut fmt::Formatter<'_>) -> fmt::Result {
        match self {
            Unfit::Unread(error) => write!(f, "can't be read: {error}"),
            Unfit::Utf16 => write!(f, "the log is UTF-16; expected UTF-8: save it as that"),
            Unfit::Packed => write!(f, "the log is packed by gzip; expected a name that ends in .gz"),
            Unfit::Lines(wrong) => wrong.fmt(f),
            Unfit::Empty => write!(
                f,
                "the log has no call; expected begin TIME RATED PAUSE yes|no, and the calls after it, one a line"
            ),
            Unfit::NoBegin(line, word) => write!(
                f,
                "line {line}: the first call is {word}; expected begin TIME RATED PAUSE yes|no: a log is replayed from its begin, \
                 since what went before is not known (--skip-bad starts at the first begin)"
            ),
            Unfit::Overwritten(name) => write!(f, "-o {name} is the log itself; expected another name"),
            Unfit::Of(name, unfit) => write!(f, "{name}: {unfit}"),
        }
    }
}

impl std::error::Error for Unfit {}

impl From<io::Error> for Unfit {
    fn from(error: io::Error) -> Unfit {
        Unfit::Unread(error)
    }
}

impl Unfit {
    pub fn of(self, name: &str) -> Unfit {
        Unfit::Of(shown(name).to_string(), Box::new(self))
    }
}

/// The name of a file as it is shown.
pub fn shown(name: &str) -> &str {
    match name {
        "-" => "standard input",
        _ => name,
    }
}

/// What is done with a line that is no call.
#[derive(Clone, Copy, Debug, PartialEq, Eq)]
pub enum Bad {
    /// Nothing is replayed.
    Refuse,
    /// It is left out, and so is what stands before the first begin and a last line without its end.
    Skip,
}

/// What was left out of a log, and what may be torn.
#[derive(Clone, Debug, Default, PartialEq, Eq)]
pub struct Damage {
    pub wrong: WrongLines,
    /// Calls and records before the first begin.
    pub before_begin: u64,
    /// The last line, if it has no line end and was taken all the same.
    pub unended: Option<usize>,
    /// What kept a log from being read to its end.
    pub cut: Option<String>,
}

impl Damage {
    /// How many lines were left out as bad.
    pub fn bad_lines(&self) -> u64 {
        (self.wrong.first.len() + self.wrong.more) as u64
    }
}

/// One line of a log as it is to be taken.
pub enum Taken {
    Entry(Entry),
    /// A bad line that is left out.
    Bad(Wrong),
}

/// Reads a log line by line, and takes or leaves out what is damaged.
pub struct Lines {
    reader: Reader<Input>,
    bad: Bad,
    begun: bool,
    pub damage: Damage,
}

const TORN: &str = "a line end: without it the last line may be torn";

impl Lines {
    pub fn new(mut input: Input, bad: Bad) -> Result<Lines, Unfit> {
        // What can't be read is told when it is read.
        let start = input.fill_buf().unwrap_or(&[]);
        match start.get(..2) {
            Some(b"\xff\xfe" | b"\xfe\xff") => return Err(Unfit::Utf16),
            Some(b"\x1f\x8b") => return Err(Unfit::Packed),
            _ => {}
        }
        Ok(Lines {
            reader: Reader::new(input),
            bad,
            begun: false,
            damage: Damage::default(),
        })
    }

    /// The next line; none at the end.
    #[allow(clippy::should_implement_trait)]
    pub fn next(&mut self) -> Result<Option<Taken>, Unfit> {
        loop {
            let read = match self.reader.next() {
                Ok(Some(read)) => read,
                Ok(None) => return self.ended(),
                Err(error) if self.bad == Bad::Skip && self.begun => return self.cut(error),
                Err(error) => return Err(error.into()),
            };
            let taken = match (read.entry, read.ended) {
                (Ok(entry), false) if self.bad == Bad::Skip => Err(torn(&entry)),
                (Ok(entry), ended) => {
                    self.damage.unended = (!ended).then_some(entry.line);
                    Ok(entry)
                }
                (Err(wrong), _) => Err(wrong),
            };
            if let Some(taken) = self.take(taken)? {
                return Ok(Some(taken));
            }
        }
    }

    /// Is a whole line there, so that the next one is read at once?
    pub fn is_ready(&self) -> bool {
        self.reader.input().buffer().contains(&b'\n')
    }

    /// Has a begin been read?
    pub fn has_begun(&self) -> bool {
        self.begun
    }

    fn take(&mut self, read: Result<Entry, Wrong>) -> Result<Option<Taken>, Unfit> {
        match read {
            Err(wrong) if self.bad == Bad::Refuse => Err(Unfit::Lines(WrongLines::of(wrong))),
            Err(wrong) => {
                self.damage.wrong.add(wrong.clone());
                Ok(Some(Taken::Bad(wrong)))
            }
            Ok(entry) => self.begin(entry),
        }
    }

    /// Nothing is replayed before the first begin.
    fn begin(&mut self, entry: Entry) -> Result<Option<Taken>, Unfit> {
        match &entry.what {
            Line::Call(Call::Begin(_)) => self.begun = true,
            Line::Comment(_) => {}
            _ if self.begun => {}
            Line::Call(call) if self.bad == Bad::Refuse => {
                return Err(Unfit::NoBegin(entry.line, call.word()))
            }
            _ if self.bad == Bad::Skip => {
                self.damage.before_begin += 1;
                return Ok(None);
            }
            // A record before the first begin is shown, and tells nothing of a list.
            _ => {}
        }
        Ok(Some(Taken::Entry(entry)))
    }

    fn ended(&self) -> Result<Option<Taken>, Unfit> {
        match self.begun {
            true => Ok(None),
            false => Err(Unfit::Empty),
        }
    }

    /// What was read so far is all there is.
    fn cut(&mut self, error: io::Error) -> Result<Option<Taken>, Unfit> {
        self.damage.cut.get_or_insert(error.to_string());
        Ok(None)
    }
}

fn torn(entry: &Entry) -> Wrong {
    Wrong {
        line: entry.line,
        what: "it is the last line, and has no line end".to_string(),
        expected: TORN,
    }
}

/// What a log has, as far as it is known before it is replayed.
#[derive(Clone, Debug, Default)]
pub struct Shape {
    pub last_line: usize,
    pub calls: u64,
    /// The greatest time of a call or record.
    pub last_time: u64,
    /// Begins that are accepted, and the time of the last of them.
    pub lists: u32,
    pub begin: u64,
    /// A measure has a current for each line.
    pub three_lines: bool,
    /// A begin is digital.
    pub digital: bool,
    /// The wall's clock is told.
    pub wall: bool,
}

impl Shape {
    /// One more line.
    pub fn see(&mut self, entry: &Entry) {
        self.last_line = entry.line;
        match &entry.what {
            Line::Comment(_) => {}
            Line::Record(record) => {
                self.last_time = self.last_time.max(record.time().unwrap_or(0));
                self.wall |= matches!(record, chuldariin_log::Record::Clock(..));
            }
            Line::Call(call) => {
                self.calls += 1;
                self.last_time = self.last_time.max(call.time());
                self.three_lines |= matches!(call, Call::MeasureLines(..));
                if let Call::Begin(settings) = call {
                    self.digital |= settings.digital;
                    if begin(settings).is_ok() {
                        self.lists += 1;
                        self.begin = settings.time;
                    }
                }
            }
        }
    }
}

/// A log that was read to its end, and can be replayed.
pub struct Log {
    name: String,
    source: Source,
    bad: Bad,
    pub shape: Shape,
    pub damage: Damage,
}

/// Reads a file, or standard input if its name is `-`.
pub fn read(name: &str, bad: Bad) -> Result<Log, Unfit> {
    let source = Source::of(name).map_err(|error| Unfit::from(error).of(name))?;
    Log::checked(name, source, bad).map_err(|unfit| unfit.of(name))
}

impl Log {
    /// A log in memory.
    pub fn of(text: &[u8]) -> Result<Log, Unfit> {
        Log::checked("log", Source::Memory(text.into()), Bad::Refuse)
    }

    /// Its name as it is shown.
    pub fn name(&self) -> &str {
        shown(&self.name)
    }

    fn checked(name: &str, source: Source, bad: Bad) -> Result<Log, Unfit> {
        let mut shape = Shape::default();
        let (mut wrong, mut unfit) = (WrongLines::default(), None);
        let mut lines = Lines::new(source.open()?, bad)?;
        // All lines that are wrong are told at once.
        loop {
            match lines.next() {
                Ok(Some(Taken::Entry(entry))) => shape.see(&entry),
                Ok(Some(Taken::Bad(_))) => {}
                Ok(None) => break,
                Err(Unfit::Lines(mistake)) => wrong.join(mistake),
                Err(no_begin @ Unfit::NoBegin(..)) => {
                    unfit.get_or_insert(no_begin);
                }
                Err(other) => {
                    unfit.get_or_insert(other);
                    break;
                }
            }
        }
        match unfit {
            // A log that can't be read to its end has a torn line there.
            Some(unread @ Unfit::Unread(_)) => return Err(unread),
            _ if !wrong.first.is_empty() => return Err(Unfit::Lines(wrong)),
            Some(unfit) => return Err(unfit),
            None => {}
        }
        Ok(Log {
            name: name.to_string(),
            source,
            bad,
            shape,
            damage: lines.damage,
        })
    }

    /// Its lines, from the first.
    pub fn lines(&self) -> Result<Lines, Unfit> {
        let named = |unfit: Unfit| unfit.of(&self.name);
        let input = self.source.open().map_err(|error| named(error.into()))?;
        Lines::new(input, self.bad).map_err(named)
    }
}
