//! What is known at a moment of a log, or after a line of it.

use crate::case::{is_time, Case, Seen, Watched, What};
use crate::input::{Log, Taken};
use crate::lists::{Lists, Moment};
use crate::turn::Turn;
use chuldariin_log::{Call, Entry, Line, Record};
use std::error::Error;
use std::rc::Rc;

/// A call of the log that outlives its line.
#[derive(Clone)]
pub struct Kept {
    entry: Rc<Entry>,
    turn: Turn<'static>,
}

/// Any call does: the one that counts is in the entry.
static NONE: Call = Call::Tick(0);

impl Kept {
    fn of(entry: &Rc<Entry>, turn: &Turn) -> Kept {
        Kept {
            entry: Rc::clone(entry),
            turn: turn.with(&NONE),
        }
    }

    pub fn turn(&self) -> Turn<'_> {
        match &self.entry.what {
            Line::Call(call) => self.turn.with(call),
            _ => self.turn.with(&NONE),
        }
    }
}

/// What is known there.
#[derive(Clone, Default)]
pub struct Found {
    /// The last accepted call up to there.
    pub last: Option<Kept>,
    /// The present list's last closing and opening.
    pub closing: Option<Kept>,
    pub opening: Option<Kept>,
    /// The first refused call after it, and how many there were.
    pub refused: Option<(Kept, u64)>,
    /// The very call that was asked for, and the line up to which what follows it is part of the answer.
    pub asked: Option<Kept>,
    until: usize,
}

impl Found {
    fn see(&mut self, entry: &Rc<Entry>, turn: &Turn) {
        let kept = Kept::of(entry, turn);
        self.asked = Some(kept.clone());
        self.until = turn.line;
        if !turn.accepted() {
            self.refused = match self.refused.take() {
                None => Some((kept, 1)),
                Some((first, count)) => Some((first, count + 1)),
            };
            return;
        }
        if turn.begins() {
            (self.closing, self.opening) = (None, None);
        }
        if turn.outcome.closing {
            self.closing = Some(kept.clone());
        }
        if turn.outcome.opened || turn.begun_while_closed() {
            self.opening = Some(kept.clone());
        }
        self.last = Some(kept);
        self.refused = None;
    }

    /// A call right behind the one that was asked for, whose own time is refused: it tells of no later moment.
    fn goes_on(&mut self, later: &Found) {
        self.refused = later.refused.clone();
        self.until = later.until;
    }
}

/// The answer, and where else the clock passed the time that was asked for.
pub struct Answer {
    pub found: Found,
    /// What the post recorded by then.
    pub watched: Watched,
    /// Calls after which the clock stood before that time, and behind it at the next call.
    pub others: Vec<(usize, u64)>,
    pub lists: Lists,
}

/// Up to where a log counts.
#[derive(Clone, Copy)]
pub enum Until {
    Moment(Moment),
    Line(usize),
}

impl Until {
    /// How near a call is: its own time, if that is not after the moment; of lines the last.
    fn rank(self, turn: &Turn) -> Option<u64> {
        let time = turn.call.time();
        match self {
            Until::Moment(moment) => {
                (turn.list == moment.list && time <= moment.time).then_some(time)
            }
            Until::Line(line) => (turn.line <= line).then_some(0),
        }
    }

    /// Does a line count for what was recorded?
    fn has(self, line: usize, own: Moment) -> bool {
        match self {
            Until::Moment(moment) => own <= moment,
            Until::Line(last) => line <= last,
        }
    }

    fn moment(self) -> Option<Moment> {
        match self {
            Until::Moment(moment) => Some(moment),
            Until::Line(_) => None,
        }
    }
}

/// The call that ranks highest, of equal ones the last, and all that is known after it.
pub fn find(log: &Log, until: Until) -> Result<Answer, Box<dyn Error>> {
    let mut case = Case::default();
    let mut search = Search::new(until);
    let mut lines = log.lines()?;
    while let Some(taken) = lines.next().map_err(|unfit| unfit.of(log.name()))? {
        let Taken::Entry(entry) = taken else { continue };
        let entry = Rc::new(entry);
        let seen = case.see(&entry)?;
        match (&seen.what, &entry.what) {
            (What::Call(turn), _) => search.call(&entry, turn),
            (_, Line::Record(record)) => search.record(record, &seen),
            _ => {}
        }
    }
    Ok(search.answer(case))
}

/// What was found up to a line, and of it what counts for the answer.
struct Search {
    until: Until,
    found: Found,
    best: Option<u64>,
    kept: Found,
    watched: Watched,
    /// The answer's call was the last one, but for strays.
    goes_on: bool,
    passed: Passed,
}

impl Search {
    fn new(until: Until) -> Search {
        Search {
            until,
            found: Found::default(),
            best: None,
            kept: Found::default(),
            watched: Watched::default(),
            goes_on: false,
            passed: Passed::default(),
        }
    }

    fn call(&mut self, entry: &Rc<Entry>, turn: &Turn) {
        let own = Moment {
            list: turn.list,
            time: turn.call.time(),
        };
        if self.until.has(turn.line, own) {
            self.watched.called(turn);
        }
        let (moment, rank) = (self.until.moment(), self.until.rank(turn));
        self.found.see(entry, turn);
        self.passed.see(turn, moment);
        self.goes_on = self.goes_on && is_stray(turn, moment);
        if rank.is_some() && rank >= self.best {
            (self.best, self.goes_on) = (rank, true);
            self.kept = self.found.clone();
        } else if self.goes_on {
            self.kept.goes_on(&self.found);
        }
    }

    fn record(&mut self, record: &Record, seen: &Seen) {
        let counts = seen.moment.list > 0 && is_time(record);
        if counts && self.until.has(seen.line, seen.moment) {
            self.watched.recorded(record);
        }
    }

    fn answer(mut self, case: Case) -> Answer {
        // Up to the moment that is asked for a contact may have failed.
        if let Until::Moment(moment) = self.until {
            self.watched.contact.at(moment.time);
        }
        let (kept, mut others) = (self.kept, self.passed.others);
        let asked = kept.asked.as_ref().map_or(0, |asked| asked.entry.line);
        let own = asked..=kept.until;
        others.retain(|other| !own.contains(&other.0));
        Answer {
            found: kept,
            watched: self.watched,
            others,
            lists: case.lists,
        }
    }
}

/// A call whose time is refused, and that does not name a later moment.
fn is_stray(turn: &Turn, moment: Option<Moment>) -> bool {
    let is_later = moment.is_none_or(|moment| turn.call.time() > moment.time);
    turn.credible_time().is_none() && !is_later
}

/// So many other moments are told.
pub const OTHERS: usize = 3;

/// Where the clock passes a time; once, unless it goes back.
#[derive(Default)]
struct Passed {
    others: Vec<(usize, u64)>,
    before: Option<(usize, u64)>,
}

impl Passed {
    fn see(&mut self, turn: &Turn, moment: Option<Moment>) {
        let Some(moment) = moment.filter(|moment| moment.list == turn.list) else {
            return;
        };
        let time = turn.call.time();
        match self.before {
            Some(before) if before.1 <= moment.time && moment.time < time => self.add(before),
            _ => {}
        }
        self.before = Some((turn.line, time));
    }

    fn add(&mut self, call: (usize, u64)) {
        if self.others.len() <= OTHERS {
            self.others.push(call);
        }
    }
}
