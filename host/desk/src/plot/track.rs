//! What is to be drawn of each call.

use super::clock::Clock;
use super::records::Records;
use super::window::{NothingThere, Window};
use crate::case::{Case, Seen, What};
use crate::causes::notes;
use crate::input::{Log, Taken};
use crate::latched::Latched;
use crate::lists::{Lists, Moment};
use crate::turn::{Overrun, Silence, Turn, SILENT};
use chuldariin::{raw, reading, Milliamps, Reading};
use chuldariin_log::Call;
use chuldariin_model::{State, SOUND_AGE};
use std::error::Error;

/// A value from a place of the axis on.
pub type Run<T> = (u64, T);

/// What a mark stands for.
#[derive(Clone, Copy, Debug, PartialEq, Eq)]
pub enum Sign {
    Begun,
    Closed,
    Opened,
}

/// A begin, a closing or an opening.
pub struct Mark {
    pub at: u64,
    pub moment: Moment,
    pub sign: Sign,
    /// Of an opening: its number in the whole log.
    pub number: u64,
    pub words: String,
}

/// The levels of an accepted sample.
pub struct Levels {
    pub at: u64,
    pub high: i32,
    pub low: i32,
    /// The sample before it is of the same list, and no longer ago than a sound one may be with the contactor closed.
    pub joined: bool,
}

/// A time in which nothing was judged.
#[derive(Clone, Copy)]
pub struct Unjudged {
    pub from: u64,
    pub to: u64,
    pub closed: bool,
    /// An accepted call ends it; else it lasts to the end of the log.
    pub over: bool,
    /// What went by while closed.
    pub silence: Option<Silence>,
}

/// The last accepted call.
#[derive(Clone, Copy)]
struct Accepted {
    at: u64,
    closed: bool,
    /// Calls were refused since; some of them for their own time.
    refused: bool,
    strays: bool,
    silence: Option<Silence>,
}

/// A log, or a part of it, as it is drawn. Times are places of the axis, ms.
#[derive(Default)]
pub struct Track {
    pub calls: u64,
    pub begins: u64,
    pub closings: u64,
    pub openings: u64,
    pub refused_calls: u64,
    /// Calls that name a time of the part, and were refused for it: they were made at another.
    pub strays: u64,
    /// The ends of what is drawn.
    pub origin: u64,
    pub end: u64,
    pub first: Moment,
    pub last: Moment,
    pub lists: Lists,
    pub clock: Clock,
    pub samples: Vec<Levels>,
    pub limit: Vec<Run<u32>>,
    pub rated: Vec<Run<u32>>,
    /// What a van may draw under a driven wave, else 0.
    pub allowed: Vec<Run<u32>>,
    pub grant: Vec<Run<u32>>,
    /// A list that is drawn is digital.
    pub digital: bool,
    /// The currents of each measure; a single one is that of line 1.
    pub measured: Vec<Run<[u32; 3]>>,
    /// A measure has a current for each line.
    pub three_lines: bool,
    pub closed: Vec<Run<bool>>,
    pub unjudged: Vec<Unjudged>,
    pub state: Vec<Run<(u8, u8)>>,
    pub overrun: Vec<Run<Option<Overrun>>>,
    pub faults: Vec<Run<Latched>>,
    /// The number of each refusal.
    pub refused: Vec<Run<u8>>,
    pub marks: Vec<Mark>,
    pub records: Records,
    /// Openings of the whole log so far.
    opened: u64,
    /// The latest call of the present list whose time was not refused itself.
    now: Moment,
    accepted: Option<Accepted>,
    last_sample: Option<u64>,
    /// What held before the first call that is drawn.
    held: Option<(State, raw::Reply, Option<Overrun>)>,
}

/// Adds a value if it is another.
fn run<T: PartialEq>(runs: &mut Vec<Run<T>>, at: u64, value: T) {
    if runs.last().is_none_or(|last| last.1 != value) {
        runs.push((at, value));
    }
}

/// A plain post's duty announces it; at 5 % it is agreed over the link, within the rated current and the limit.
fn allowed(state: &State, wave: u32) -> u32 {
    match reading(wave) {
        Ok(Reading::Current(Milliamps(current))) => current,
        Ok(Reading::DigitalOnly) => state.least(),
        _ => 0,
    }
}

impl Track {
    /// The calls and records of a log that lie in a part of it.
    pub fn of(log: &Log, window: &Window) -> Result<Track, Box<dyn Error>> {
        let mut case = Case::default();
        let mut track = Track::default();
        let mut lines = log.lines()?;
        while let Some(taken) = lines.next().map_err(|unfit| unfit.of(log.name()))? {
            if let Taken::Entry(entry) = &taken {
                let seen = case.see(entry)?;
                track.see(&seen, &case.lists, window);
            }
        }
        track.records.finish(&case, &track.clock, window);
        track.lists = case.lists;
        track.finish(window)?;
        Ok(track)
    }

    fn see(&mut self, seen: &Seen, lists: &Lists, window: &Window) {
        self.clock.grow(lists);
        // Before the first begin there is no time.
        if lists.count() == 0 {
            return;
        }
        if let What::Call(turn) = &seen.what {
            self.called(turn, window);
        }
        self.records.see(seen, self.now, &self.clock, window);
    }

    fn called(&mut self, turn: &Turn, window: &Window) {
        let (list, time) = (turn.list, turn.credible_time());
        let own = time.map(|time| Moment { list, time });
        self.now = match own {
            Some(begin) if turn.begins() => begin,
            Some(own) => self.now.max(own),
            None => self.now,
        };
        // A time that is refused itself says nothing of when the call was made.
        let moment = own.unwrap_or(self.now);
        let time = turn.call.time();
        let is_stray = window.has(Moment { list, time }) && !window.has(moment);
        self.strays += u64::from(is_stray);
        let at = self.clock.at(moment);
        self.judged(turn, at, window);
        if turn.accepted() && window.is_before(moment) {
            self.held = Some((turn.after, turn.reply, turn.overrun_after()));
        }
        let opens = turn.outcome.opened || turn.begun_while_closed();
        self.opened += u64::from(opens);
        if window.has(moment) {
            self.draw(turn, moment, at, window);
        }
    }

    /// Was anything judged since the last accepted call?
    fn judged(&mut self, turn: &Turn, at: u64, window: &Window) {
        if !turn.accepted() {
            if let Some(accepted) = &mut self.accepted {
                accepted.refused = true;
                accepted.strays |= turn.credible_time().is_none();
                accepted.silence = turn.unjudged;
            }
            return;
        }
        let closed = turn.reply.closed;
        let this = Accepted {
            at,
            closed,
            refused: false,
            strays: false,
            silence: None,
        };
        let Some(before) = self.accepted.replace(this) else {
            return;
        };
        let from = before.at;
        let touches = window.overlaps(from, at.max(from + 1));
        if turn.silence.is_some() && touches {
            self.unjudged.push(Unjudged {
                from,
                to: at.max(from),
                closed: true,
                over: true,
                silence: turn.silence,
            });
        }
    }

    fn draw(&mut self, turn: &Turn, moment: Moment, at: u64, window: &Window) {
        if self.closed.is_empty() {
            self.start(window);
        }
        self.calls += 1;
        match turn.accepted() {
            true => self.accept(at, moment, turn),
            false => {
                self.refused_calls += 1;
                self.refused.push((at, turn.reply.refusal));
            }
        }
    }

    /// What held before the part that is drawn holds at its start.
    fn start(&mut self, window: &Window) {
        let Some((state, reply, overrun)) = self.held else {
            return;
        };
        let origin = window.from.map_or(0, |from| from.at);
        self.values(origin, &state, &reply);
        run(&mut self.overrun, origin, overrun);
    }

    fn accept(&mut self, at: u64, moment: Moment, turn: &Turn) {
        if turn.begins() {
            self.begins += 1;
            self.last_sample = None;
        }
        if let Some(sample) = turn.sample {
            self.samples.push(Levels {
                at,
                high: sample.high,
                low: sample.low,
                joined: self.last_sample.is_some_and(|last| at - last <= SOUND_AGE),
            });
            self.last_sample = Some(at);
        }
        if let Call::Measure(..) | Call::MeasureLines(..) = turn.call {
            self.measured.push((at, turn.reply.lines.each()));
            self.three_lines |= matches!(turn.call, Call::MeasureLines(..));
        }
        self.values(at, &turn.after, &turn.reply);
        run(&mut self.overrun, at, turn.overrun_after());
        self.mark(at, moment, turn);
    }

    fn values(&mut self, at: u64, state: &State, reply: &raw::Reply) {
        self.digital |= state.digital;
        run(&mut self.limit, at, state.limit);
        run(&mut self.rated, at, state.rated);
        run(&mut self.grant, at, state.grant);
        run(&mut self.allowed, at, allowed(state, reply.wave));
        run(&mut self.closed, at, reply.closed);
        run(&mut self.state, at, (reply.letter, reply.digit));
        run(&mut self.faults, at, Latched::of(state));
    }

    fn mark(&mut self, at: u64, moment: Moment, turn: &Turn) {
        let opened = turn.outcome.opened || turn.begun_while_closed();
        let sign = match (opened, turn.outcome.closing, turn.begins()) {
            (true, _, _) => Sign::Opened,
            (_, true, _) => Sign::Closed,
            (_, _, true) => Sign::Begun,
            _ => return,
        };
        self.openings += u64::from(sign == Sign::Opened);
        self.closings += u64::from(sign == Sign::Closed);
        let first = notes(turn).into_iter().next();
        self.marks.push(Mark {
            at,
            moment,
            sign,
            number: self.opened,
            words: first.map_or(String::new(), |note| note.words),
        });
    }

    /// The log is over: where does what is drawn start and end?
    fn finish(&mut self, window: &Window) -> Result<(), NothingThere> {
        let (Some(begin), Some(accepted)) = (self.clock.start(), self.accepted) else {
            return Err(NothingThere::NotAccepted(self.lists.not_begun()));
        };
        let count = self.lists.count();
        let calls_end = self.lists.get(count).map_or(0, |list| list.end);
        let calls_end = self.clock.at(self.lists.now(calls_end));
        let known_end = calls_end.max(self.records.end);
        let log_end = known_end + room_for_strays(&accepted, known_end, begin);
        self.unjudged_at_end(accepted, log_end, window);
        self.origin = window.from.map_or(begin, |from| from.at.max(begin));
        self.first = window
            .from
            .map_or(self.clock.moment(begin), |from| from.moment);
        if self.origin > log_end {
            let end = self.clock.moment(log_end).shown(count);
            return Err(NothingThere::After(self.first.shown(count), end));
        }
        let to = window.to.filter(|to| to.at < log_end);
        self.end = to.map_or(log_end, |to| to.at).max(self.origin);
        self.last = to.map_or(self.clock.moment(known_end), |to| to.moment);
        // In a part without an accepted call what held before it goes on.
        if self.closed.is_empty() {
            self.start(window);
        }
        Ok(())
    }

    /// Refused calls judge nothing, and a closed contactor is not left alone for so long.
    fn unjudged_at_end(&mut self, accepted: Accepted, end: u64, window: &Window) {
        let Accepted {
            at: from,
            closed,
            refused,
            silence,
            ..
        } = accepted;
        let is_long = closed && end.saturating_sub(from) > SILENT;
        if (refused || is_long) && from < end && window.overlaps(from, end) {
            self.unjudged.push(Unjudged {
                from,
                to: end,
                closed,
                over: false,
                silence,
            });
        }
    }
}

/// Calls at the end that are refused for their own time have no place of their own: they get a little room behind the last.
fn room_for_strays(accepted: &Accepted, end: u64, begin: u64) -> u64 {
    match accepted.strays && accepted.at == end {
        true => (end - begin) / 25 + 1,
        false => 0,
    }
}
