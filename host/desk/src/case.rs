//! A log as it goes by: each call is put to the controller, and each record held against it.

use crate::contact::{Contact, Event, Failing};
use crate::lists::{Lists, Moment};
use crate::recorded::{Commanded, Difference};
use crate::turn::{Asked, Differs, Post, Turn, LARGEST_TIME};
use chuldariin_log::{Entry, Line, Record, Told, Wall};

/// A record that is further ahead of the calls may be of another clock, ms.
pub const AHEAD: u64 = 10_000;

/// A line of a log, and what came of it.
pub struct Seen<'a> {
    pub line: usize,
    /// Its list and time; a line without a time of its own has that of the call before it.
    pub moment: Moment,
    /// What the wall's clock shows then, if that is known.
    pub wall: Option<Wall>,
    pub what: What<'a>,
    /// What is to be said of the contact.
    pub contact: Option<Event>,
    /// So far is a record ahead of the calls, ms.
    pub ahead: u64,
}

pub enum What<'a> {
    Comment(&'a str),
    Call(Box<Turn<'a>>),
    /// The differences; none if there is nothing to compare with.
    Told(&'a Told, Option<Vec<Difference>>),
    Contact(bool),
    Panel(&'a str),
    Clock,
    Travel,
}

/// What the post recorded: its contact, held against the command, and its panel.
#[derive(Clone, Default)]
pub struct Watched {
    pub contact: Contact,
    /// The panel's words, and since when they stand there.
    pub panel: Option<(u64, String)>,
}

impl Watched {
    /// A call: time goes on, and the command may change.
    pub fn called(&mut self, turn: &Turn) -> Option<Event> {
        let time = turn.credible_time()?;
        if turn.begins() {
            let runs_on = turn.clock_runs_on();
            if !runs_on {
                self.panel = self.panel.take().map(|(_, text)| (time, text));
            }
            return self.contact.begin(time, runs_on);
        }
        let event = self.contact.at(time);
        match turn.accepted() {
            true => self.contact.command(turn.reply.closed, time).or(event),
            false => event,
        }
    }

    pub fn recorded(&mut self, record: &Record) -> Option<Event> {
        match record {
            Record::Contact(time, closed) => return self.contact.report(*closed, *time),
            Record::Panel(time, text) => self.panel = Some((*time, text.clone())),
            Record::Travel(millis) => self.contact.travels(*millis),
            Record::Told(_) | Record::Clock(..) => {}
        }
        None
    }
}

/// Can a record be held against a command? Not with a time that no call can have.
pub fn is_time(record: &Record) -> bool {
    record.time().is_none_or(|time| time <= LARGEST_TIME)
}

/// A log that is replayed.
pub struct Case {
    post: Post,
    pub lists: Lists,
    watched: Watched,
    commanded: Commanded,
    /// The time of the last call.
    time: u64,
}

impl Default for Case {
    fn default() -> Case {
        Case {
            post: Post::default(),
            lists: Lists::default(),
            watched: Watched::default(),
            commanded: Commanded::nothing(),
            time: 0,
        }
    }
}

impl Case {
    /// The next line.
    pub fn see<'a>(&mut self, entry: &'a Entry) -> Result<Seen<'a>, Differs> {
        self.see_asked(entry, None)
    }

    /// The same of a line whose call was put to the archive before.
    pub fn see_asked<'a>(
        &mut self,
        entry: &'a Entry,
        asked: Option<&Asked>,
    ) -> Result<Seen<'a>, Differs> {
        let (what, contact) = match &entry.what {
            Line::Comment(text) => (What::Comment(text), None),
            Line::Call(call) => {
                let turn = match asked {
                    Some(asked) => self.post.explain(entry.line, call, asked)?,
                    None => self.post.turn(entry.line, call)?,
                };
                let contact = self.called(&turn);
                (What::Call(Box::new(turn)), contact)
            }
            Line::Record(record) => self.recorded(record),
        };
        let own = match &entry.what {
            Line::Record(record) => record.time(),
            _ => None,
        };
        let moment = self.lists.now(own.unwrap_or(self.time));
        let latest = self.lists.get(moment.list).map_or(0, |list| list.end);
        Ok(Seen {
            line: entry.line,
            moment,
            wall: self.lists.wall(moment),
            what,
            contact,
            ahead: own.map_or(0, |time| time.saturating_sub(latest)),
        })
    }

    fn called(&mut self, turn: &Turn) -> Option<Event> {
        self.time = turn.call.time();
        self.commanded = Commanded::by(turn);
        self.lists.see(turn);
        self.watched.called(turn)
    }

    fn recorded<'a>(&mut self, record: &'a Record) -> (What<'a>, Option<Event>) {
        // Before the first begin there is no list that a record could be of.
        let counts = self.lists.count() > 0 && is_time(record);
        let event = counts.then(|| self.watched.recorded(record)).flatten();
        let what = match record {
            Record::Told(told) => What::Told(told, self.commanded.differences(told)),
            Record::Contact(_, closed) => What::Contact(*closed),
            Record::Panel(_, text) => What::Panel(text),
            Record::Clock(time, wall) => {
                self.lists.tie(*time, *wall);
                What::Clock
            }
            Record::Travel(_) => What::Travel,
        };
        (what, event)
    }

    /// A contact that fails at the end of the log, and for how long it has.
    pub fn contact_at_end(&self) -> Option<(Failing, u64)> {
        self.watched.contact.end()
    }
}
