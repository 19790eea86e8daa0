//! One call of a log, replayed through the archive and explained beside it.

use crate::evaluate::{evaluate, remembered};
use chuldariin::raw;
use chuldariin_log::answer::answer;
use chuldariin_log::ask::ask;
use chuldariin_log::meaning::meaning;
use chuldariin_log::unlike::{unlike, unlike_kept};
use chuldariin_log::{Call, Room, Window};
use chuldariin_model::{driven, verdict, Evaluated, Outcome, State, Verdict};
use std::fmt;

/// An accepted sample.
#[derive(Clone, Copy, Debug, PartialEq, Eq)]
pub struct Sample {
    pub time: u64,
    pub high: i32,
    pub low: i32,
    /// Was the wave driven before its call?
    pub driven: bool,
    pub verdict: Verdict,
}

/// Why there is no previous sample.
#[derive(Clone, Copy, Debug, PartialEq, Eq)]
pub enum Forgotten {
    /// There was none since begin.
    Never,
    Opening(u64),
    Fault(u64),
}

/// An over-run that runs.
#[derive(Clone, Copy, Debug, PartialEq, Eq)]
pub struct Overrun {
    /// Its start, or its last restart: what the controller keeps.
    pub start: u64,
    /// When it first began.
    pub first: u64,
    /// In a digital post nothing restarts it.
    pub digital: bool,
}

impl Overrun {
    /// Has a lowered duty restarted it?
    pub fn restarted(&self) -> bool {
        self.start != self.first
    }
}

/// A board calls every 20 ms or sooner. Longer than this without an accepted call, nothing has judged the contactor
/// in the 100 ms that table A3.4 allows.
pub const SILENT: u64 = 100;

/// No call is accepted after this time, ms (refusal 3).
pub const LARGEST_TIME: u64 = 1_000_000_000_000;

/// From one call that is refused for its own time to the next, a longer step is a jump of the clock.
const STEP: u64 = 1_000;

/// A time with the contactor closed and no accepted call.
#[derive(Clone, Copy, Debug, PartialEq, Eq)]
pub struct Silence {
    /// The last accepted call.
    pub from: u64,
    /// How long, ms; by the clock, or by the steps of calls that are refused for their own times: then at least so long.
    pub long: u64,
    pub strayed: bool,
    /// An accepted call ends it; else a refused one finds it going on.
    pub over: bool,
}

impl Silence {
    /// Too long to be left unsaid?
    pub fn is_long(&self) -> bool {
        self.long > SILENT
    }
}

/// A call, what the archive told, and why.
#[derive(Clone, Copy, Debug)]
pub struct Turn<'a> {
    /// Its line in the log.
    pub line: usize,
    /// The number of its list, from 1; 0 before the first begin.
    pub list: u32,
    pub call: &'a Call,
    /// What the archive told.
    pub reply: raw::Reply,
    /// Had a begin been accepted before the call?
    pub begun: bool,
    /// The greatest time of the list before the call, but for times that were refused themselves.
    pub latest: u64,
    /// What the archive's controller held before and after the call.
    pub before: State,
    pub after: State,
    /// Causes, conditions and latches.
    pub outcome: Outcome,
    /// This call's sample.
    pub sample: Option<Sample>,
    /// The previous one, as the call found it; begin looks for none.
    pub previous: Result<Sample, Forgotten>,
    /// The over-run as the call found it.
    pub overrun: Option<Overrun>,
    /// What went by with the contactor closed since the last accepted call.
    pub unjudged: Option<Silence>,
    /// The same if it is long, and the call ends it or is the first refused one to find it so.
    pub silence: Option<Silence>,
}

impl Turn<'_> {
    /// The same with a call that lives elsewhere.
    pub fn with(self, call: &Call) -> Turn<'_> {
        Turn { call, ..self }
    }

    /// When the call was made, unless its time is refused itself. A refused begin may be of another clock.
    pub fn credible_time(&self) -> Option<u64> {
        let time = self.call.time();
        let is_earlier = matches!(self.call, Call::Begin(_)) && time < self.before.last;
        match self.reply.refusal {
            0 => Some(time),
            2 | 3 => None,
            _ if is_earlier => None,
            _ => Some(time),
        }
    }

    /// An accepted begin whose clock is that of the list before it.
    pub fn clock_runs_on(&self) -> bool {
        self.begun && self.begins() && self.after.last >= self.latest
    }

    /// A refused begin comes alone, and before the first begin nothing is commanded.
    pub fn tells_nothing(&self) -> bool {
        self.reply.letter == 0 || !self.begun && !self.accepted()
    }

    /// The over-run as the call leaves it.
    pub fn overrun_after(&self) -> Option<Overrun> {
        let start = self.after.overrun?;
        let first = self.overrun.map_or(start, |overrun| overrun.first);
        let digital = self.after.digital;
        Some(Overrun {
            start,
            first,
            digital,
        })
    }

    pub fn accepted(&self) -> bool {
        self.reply.refusal == 0
    }

    /// A begin that was accepted.
    pub fn begins(&self) -> bool {
        self.accepted() && matches!(self.call, Call::Begin(_))
    }

    /// The contactor was closed, and a new begin has opened it.
    pub fn begun_while_closed(&self) -> bool {
        self.begins() && self.before.closed
    }
}

/// The archive did what the explanation has no place for.
#[derive(Debug)]
pub struct Differs {
    pub line: usize,
    pub what: Vec<&'static str>,
}

impl fmt::Display for Differs {
    fn fmt(&self, f: &mut fmt::Formatter<'_>) -> fmt::Result {
        write!(
            f,
            "line {}: the archive's answer and its explanation differ in: {}. Nothing below this line can be trusted: \
             please report it with this log",
            self.line,
            self.what.join(", ")
        )
    }
}

impl std::error::Error for Differs {}

/// What the archive told, and its controller after the call.
#[derive(Clone, Copy, Debug)]
pub struct Asked {
    reply: raw::Reply,
    lent: raw::Controller,
}

/// The archive with the controller that it is lent. It needs no explanation, so it can be asked ahead of that.
pub struct Archive {
    lent: raw::Controller,
    room: Room,
}

impl Default for Archive {
    fn default() -> Archive {
        Archive {
            lent: raw::Controller::ZEROED,
            room: Room::default(),
        }
    }
}

impl Archive {
    /// Puts the next call to it.
    pub fn ask(&mut self, call: &Call) -> Asked {
        let reply = ask(&mut self.lent, call, &mut self.room);
        let lent = self.lent;
        Asked { reply, lent }
    }
}

/// A post whose log is replayed.
pub struct Post {
    archive: Archive,
    state: State,
    begun: bool,
    latest: u64,
    list: u32,
    previous: Result<Sample, Forgotten>,
    overrun: Option<Overrun>,
    /// A refused call was found in the present silence.
    silent: bool,
    /// Since the last accepted call: the last time that was refused itself, and how far these have gone on, ms.
    stray: Option<u64>,
    strayed: u64,
    room: Room,
}

impl Default for Post {
    fn default() -> Post {
        Post {
            state: meaning(&raw::Controller::ZEROED),
            archive: Archive::default(),
            begun: false,
            latest: 0,
            list: 0,
            previous: Err(Forgotten::Never),
            overrun: None,
            silent: false,
            stray: None,
            strayed: 0,
            room: Room::default(),
        }
    }
}

impl Post {
    /// Puts the next call to the archive, and explains what it did.
    pub fn turn<'a>(&mut self, line: usize, call: &'a Call) -> Result<Turn<'a>, Differs> {
        let asked = self.archive.ask(call);
        self.explain(line, call, &asked)
    }

    /// Explains what the archive did.
    pub fn explain<'a>(
        &mut self,
        line: usize,
        call: &'a Call,
        asked: &Asked,
    ) -> Result<Turn<'a>, Differs> {
        let before = self.state;
        let reply = asked.reply;
        let levels = self.levels(call);
        let (after, outcome) = answer(&before, call, |_| levels, remembered, &mut self.room);
        self.state = meaning(&asked.lent);
        let mut what = unlike(&reply, &outcome.reply);
        what.extend(unlike_kept(&self.state, &after));
        if !what.is_empty() {
            return Err(Differs { line, what });
        }
        let mut turn = Turn {
            line,
            list: self.list,
            call,
            reply,
            begun: self.begun,
            latest: self.latest,
            before,
            after,
            outcome,
            sample: sampled(call, &reply, levels, &before),
            previous: match call {
                Call::Begin(_) => Err(Forgotten::Never),
                _ => self.previous,
            },
            overrun: self.overrun,
            unjudged: None,
            silence: None,
        };
        self.keep(&mut turn);
        Ok(turn)
    }

    /// What goes by with the contactor closed and no accepted call, up to this one.
    fn unjudged(&mut self, turn: &Turn) -> Option<Silence> {
        let strayed = self.strayed(turn);
        if !turn.before.closed {
            return None;
        }
        let from = turn.before.last;
        // A clock that starts anew tells nothing of the time between two lists, and a refused time nothing at all.
        let anew = turn.begins() && !turn.clock_runs_on();
        let time = match turn.credible_time() {
            Some(own) if turn.accepted() && !anew => own,
            Some(own) if !anew => own.max(turn.latest),
            _ => turn.latest,
        };
        let by_clock = time.saturating_sub(from);
        Some(Silence {
            from,
            long: by_clock.max(strayed),
            strayed: strayed > by_clock,
            over: turn.accepted(),
        })
    }

    /// How far the times have gone on of calls that were refused for them, since the last accepted call.
    fn strayed(&mut self, turn: &Turn) -> u64 {
        if turn.accepted() {
            self.stray = None;
            return std::mem::take(&mut self.strayed);
        }
        if turn.credible_time().is_none() {
            let time = turn.call.time();
            let step = self.stray.map_or(0, |last| time.saturating_sub(last));
            self.strayed += if step > STEP { 0 } else { step };
            self.stray = Some(time);
        }
        self.strayed
    }

    /// Is it to be told: a long one, once by a refused call and once when it is over?
    fn is_told(&mut self, unjudged: &Silence) -> bool {
        let told = std::mem::replace(&mut self.silent, unjudged.is_long() && !unjudged.over);
        unjudged.is_long() && (unjudged.over || !told)
    }

    /// The levels of a sample; any refusal does for another call.
    fn levels(&mut self, call: &Call) -> Evaluated {
        match call {
            // Each half is its own support.
            &Call::Sample(_, Window::Halves(one, other))
                if crate::evaluate::in_range(one) && crate::evaluate::in_range(other) =>
            {
                Ok((one.max(other), one.min(other)))
            }
            Call::Sample(_, window) => evaluate(window.readings(&mut self.room)),
            _ => Err(0),
        }
    }

    /// What goes on from call to call: the list, the silence, the over-run, the previous sample.
    fn keep(&mut self, turn: &mut Turn) {
        self.list += u32::from(turn.begins());
        turn.list = self.list;
        turn.unjudged = self.unjudged(turn);
        turn.silence = turn.unjudged.filter(|unjudged| self.is_told(unjudged));
        self.overrun = turn.overrun_after();
        self.begun |= turn.begins();
        self.latest = match turn.begins() {
            true => turn.after.last,
            false => self.latest.max(turn.credible_time().unwrap_or(0)),
        };
        if turn.accepted() {
            self.keep_previous(turn);
        }
    }

    /// The previous sample of the next call.
    fn keep_previous(&mut self, turn: &Turn) {
        let time = turn.after.last;
        self.previous = match (turn.begins(), turn.sample) {
            (true, _) => Err(Forgotten::Never),
            (_, _) if turn.outcome.opened => Err(Forgotten::Opening(time)),
            (_, _) if turn.outcome.latched.contains(&true) => Err(Forgotten::Fault(time)),
            (_, Some(sample)) => Ok(sample),
            (_, None) => self.previous,
        };
    }
}

fn sampled(call: &Call, reply: &raw::Reply, levels: Evaluated, before: &State) -> Option<Sample> {
    let driven = driven(before.digital, before.wave);
    match (call, levels) {
        (&Call::Sample(time, _), Ok((high, low))) if reply.refusal == 0 => Some(Sample {
            time,
            high,
            low,
            driven,
            verdict: verdict(high, low, driven, before.ventilation),
        }),
        _ => None,
    }
}

#[cfg(test)]
mod tests {
    use super::Post;
    use chuldariin_log::text::calls;

    #[test]
    fn a_difference_ends_the_replay() {
        let list = calls("begin 0 32000 0 no\ntick 1").expect("a list");
        let mut post = Post::default();
        post.turn(1, &list[0]).expect("no difference");
        // As if the archive kept another limit than it was told.
        post.state.limit = 1;
        let differs = post.turn(2, &list[1]).expect_err("another limit is kept");
        assert_eq!(
            (differs.line, differs.what),
            (2, vec!["kept limit", "controller"])
        );
    }
}
