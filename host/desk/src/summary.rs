//! What a whole log comes to, in numbers.

use crate::case::{Case, Seen, What};
use crate::contact::{Event, Fails};
use crate::latched::Latched;
use crate::lists::Moment;
use crate::turn::{Silence, Turn, LARGEST_TIME};
use crate::unsound::{Unsound, UNSOUND};
use crate::words::REFUSALS;

/// Two closings in a row of one list.
#[derive(Clone, Copy, Debug)]
pub struct Spacing {
    pub first: Moment,
    pub second: Moment,
    pub pause: u64,
}

impl Spacing {
    pub fn apart(&self) -> u64 {
        self.second.time - self.first.time
    }

    fn kept(&self) -> bool {
        self.apart() >= self.pause
    }
}

/// The refusals' numbers, from 0 on.
const NUMBERS: usize = REFUSALS[REFUSALS.len() - 1].0 + 1;
/// So many texts of a panel are told apart.
const TEXTS: usize = 20;

/// The contactor's switching.
#[derive(Clone, Debug, Default)]
pub struct Switching {
    pub closings: u64,
    pub openings: u64,
    pub by_begin: u64,
    pub several: u64,
    /// Openings that are more than a van that ends its charge or is unplugged.
    pub troubled: u64,
    pub causes: [u64; 5],
    /// What cause (i) was, in the order of `UNSOUND`.
    pub unsound: [u64; UNSOUND.len()],
    /// Time commanded closed, ms.
    pub closed: u64,
    pub shortest: Option<Spacing>,
    /// Closings that came too soon; the proofs say that there are none.
    pub broken: u64,
    /// The shortest time between closings across a begin on one clock.
    pub across: Option<u64>,
    last_closing: Option<u64>,
    /// The last closing before the present list, where the clock runs on.
    closing_before: Option<u64>,
}

/// Times without an accepted call while closed.
#[derive(Clone, Copy, Debug, Default)]
pub struct Silences {
    pub count: u64,
    pub longest: Option<(u32, Silence)>,
}

/// What the post recorded, against what was commanded.
#[derive(Clone, Debug, Default)]
pub struct Records {
    /// `told` lines, those of them that differ, and the parts in which they do.
    pub told: u64,
    pub differ: u64,
    pub parts: Vec<(&'static str, u64)>,
    pub contacts: u64,
    /// How often the contact moved without a command.
    pub moved: u64,
    /// How often the contact did not open, or not close, and the longest of each, ms.
    pub welded: (u64, u64),
    pub not_closing: (u64, u64),
    pub panel: Vec<Shown>,
    /// The text that stands there, and the contact as it was last reported.
    shown: Option<usize>,
    contact: Option<bool>,
    since: u64,
}

/// A text of the panel: how long it stood, and how long of it the contactor was commanded open, and the contact open.
#[derive(Clone, Debug, Default)]
pub struct Shown {
    pub text: String,
    pub long: u64,
    pub commanded_open: u64,
    pub contact_open: u64,
}

/// Counts over a log.
#[derive(Clone, Debug, Default)]
pub struct Summary {
    pub calls: u64,
    pub lists: u32,
    /// By number; no call is refused 0, 9 or 10.
    pub refusals: [u64; NUMBERS],
    /// How often others came behind a fault, by its number; 0 is no fault.
    pub firsts: [u64; 6],
    pub switching: Switching,
    pub silences: Silences,
    pub records: Records,
    /// From its first begin to its last time.
    pub span: Option<(Moment, Moment)>,
    /// The time of all lists, ms.
    pub long: u64,
    /// Calls refused in a row, up to now.
    pub refused_now: u64,
    /// The last accepted call, and whether it left the contactor closed.
    pub held: Option<(Moment, bool)>,
    /// The silence that goes on.
    unjudged: Option<Silence>,
}

impl Summary {
    pub fn refused(&self) -> u64 {
        self.refusals.iter().sum()
    }

    /// The longest silence, ms.
    pub fn longest_silence(&self) -> u64 {
        let longest = self.silences.longest;
        longest.map_or(0, |longest| longest.1.long)
    }

    /// One more line.
    pub fn see(&mut self, seen: &Seen) {
        match &seen.what {
            What::Call(turn) => self.call(turn, seen.moment),
            What::Told(_, Some(differences)) => {
                self.records.told += 1;
                self.records.differ += u64::from(!differences.is_empty());
                for difference in differences {
                    count(&mut self.records.parts, difference.part);
                }
            }
            What::Contact(closed) => {
                self.passes(seen.moment.time);
                self.records.contacts += 1;
                self.records.contact = Some(*closed);
            }
            What::Panel(text) => {
                self.passes(seen.moment.time);
                self.records.shows(text);
            }
            _ => {}
        }
        match seen.contact {
            Some(Event::Ends(failing, long)) => self.records.failed(failing.fails, long),
            Some(Event::Moves(_)) => self.records.moved += 1,
            Some(Event::Fails(..)) | None => {}
        }
    }

    fn call(&mut self, turn: &Turn, moment: Moment) {
        self.calls += 1;
        self.silences.see(turn);
        if !turn.accepted() {
            self.refusals[turn.reply.refusal as usize] += 1;
            self.refused_now += 1;
            self.unjudged = turn.unjudged;
            return;
        }
        self.goes_on(turn);
        self.refused_now = 0;
        self.unjudged = None;
        self.held = Some((moment, turn.reply.closed));
        if turn.begins() {
            self.lists += 1;
            self.switching.begin(turn);
        }
        if turn.outcome.opened {
            self.switching.opening(turn);
        }
        if turn.outcome.closing {
            self.switching.closing(moment, turn.after.pause);
        }
        if turn.outcome.latched.contains(&true) {
            self.latched(turn);
        }
    }

    /// Time went on up to an accepted call. The time between two lists is of neither: the post may have been off.
    fn goes_on(&mut self, turn: &Turn) {
        let until = match turn.begins() {
            true => turn.latest,
            false => turn.after.last,
        };
        if turn.begun && turn.before.closed {
            self.switching.closed += until.saturating_sub(turn.before.last);
        }
        if turn.begun {
            self.records.passes(until, turn.before.closed);
        }
        if turn.begins() {
            self.records.since = turn.after.last;
        }
    }

    /// Time went on up to a record, unless its time is one that no call can have.
    fn passes(&mut self, time: u64) {
        let closed = self.held.is_some_and(|held| held.1);
        if time <= LARGEST_TIME {
            self.records.passes(time, closed);
        }
    }

    /// However many come behind a fault before a clear, it is counted once: when the second is latched.
    fn latched(&mut self, turn: &Turn) {
        let count = |state| Latched::of(state).numbers().count();
        if count(&turn.before) < 2 && count(&turn.after) > 1 {
            self.firsts[usize::from(turn.reply.fault)] += 1;
        }
    }

    /// The log is over.
    pub fn finish(&mut self, case: &Case) {
        if let Some((failing, long)) = case.contact_at_end() {
            self.records.failed(failing.fails, long);
        }
        let lists = 1..=case.lists.count();
        self.long = lists
            .filter_map(|list| case.lists.get(list))
            .map(|list| list.end - list.begin)
            .sum();
        let last = case.lists.get(case.lists.count());
        if let (Some(first), Some(last)) = (case.lists.get(1), last) {
            let from = Moment {
                list: 1,
                time: first.begin,
            };
            self.span = Some((from, case.lists.now(last.end)));
        }
        if let (Some((held, closed)), Some(last)) = (self.held, last) {
            let passed = last.end.saturating_sub(held.time);
            self.switching.closed += if closed { passed } else { 0 };
            self.records.passes(last.end, closed);
        }
        if let (Some(unjudged), Some((held, _))) = (self.unjudged, self.held) {
            self.silences.goes_on(held.list, unjudged);
        }
    }
}

impl Switching {
    fn begin(&mut self, turn: &Turn) {
        let opened = u64::from(turn.begun_while_closed());
        self.by_begin += opened;
        self.troubled += opened;
        // A clock that starts anew tells nothing of the time between.
        let last = self.last_closing.or(self.closing_before);
        self.closing_before = last.filter(|_| turn.clock_runs_on());
        self.last_closing = None;
    }

    fn opening(&mut self, turn: &Turn) {
        self.openings += 1;
        let held = turn.outcome.causes.map(u64::from);
        self.several += u64::from(held.iter().sum::<u64>() > 1);
        for (count, held) in self.causes.iter_mut().zip(held) {
            *count += held;
        }
        let unsound = Unsound::behind(turn);
        let place = UNSOUND.iter().position(|kind| Some(*kind) == unsound);
        if let Some(place) = place {
            self.unsound[place] += 1;
        }
        let is_alone = held.iter().sum::<u64>() == 1;
        let is_usual = is_alone && unsound.is_some_and(Unsound::is_usual);
        self.troubled += u64::from(!is_usual);
    }

    fn closing(&mut self, moment: Moment, pause: u64) {
        self.closings += 1;
        let time = moment.time;
        if let Some(first) = self.last_closing {
            let spacing = Spacing {
                first: Moment {
                    time: first,
                    ..moment
                },
                second: moment,
                pause,
            };
            self.broken += u64::from(!spacing.kept());
            self.shortest = match self.shortest {
                Some(shortest) if shortest.apart() <= spacing.apart() => Some(shortest),
                _ => Some(spacing),
            };
        } else if let Some(first) = self.closing_before {
            let apart = time - first;
            self.across = Some(self.across.map_or(apart, |across| across.min(apart)));
        }
        self.last_closing = Some(time);
    }

    /// Openings, those by a begin included.
    pub fn all_openings(&self) -> u64 {
        self.openings + self.by_begin
    }
}

impl Silences {
    fn see(&mut self, turn: &Turn) {
        let Some(silence) = turn.silence else { return };
        if silence.over {
            // A begin ends the silence of the list before it.
            self.add(turn.list - u32::from(turn.begins()), silence);
        }
    }

    /// One that no accepted call ends.
    fn goes_on(&mut self, list: u32, unjudged: Silence) {
        if unjudged.is_long() {
            self.add(list, unjudged);
        }
    }

    fn add(&mut self, list: u32, silence: Silence) {
        self.count += 1;
        let is_longer = |longest: (u32, Silence)| longest.1.long < silence.long;
        if self.longest.is_none_or(is_longer) {
            self.longest = Some((list, silence));
        }
    }
}

impl Records {
    fn failed(&mut self, fails: Fails, long: u64) {
        let (count, longest) = match fails {
            Fails::Welded => &mut self.welded,
            Fails::NotClosing => &mut self.not_closing,
        };
        *count += 1;
        *longest = (*longest).max(long);
    }

    /// Panel, command and contact stand as they were up to a time.
    fn passes(&mut self, time: u64, closed: bool) {
        let passed = time.saturating_sub(self.since);
        self.since = self.since.max(time);
        let contact_open = self.contact == Some(false);
        if let Some(shown) = self.shown.and_then(|shown| self.panel.get_mut(shown)) {
            shown.long += passed;
            shown.commanded_open += if closed { 0 } else { passed };
            shown.contact_open += if contact_open { passed } else { 0 };
        }
    }

    /// The panel shows another text.
    fn shows(&mut self, text: &str) {
        let known = self.panel.iter().position(|shown| shown.text == text);
        if known.is_none() && self.panel.len() < TEXTS {
            self.panel.push(Shown {
                text: text.to_string(),
                ..Shown::default()
            });
        }
        self.shown = self.panel.iter().position(|shown| shown.text == text);
    }

    /// How often the contact was not as commanded.
    pub fn contact(&self) -> u64 {
        self.moved + self.welded.0 + self.not_closing.0
    }
}

fn count(parts: &mut Vec<(&'static str, u64)>, part: &'static str) {
    match parts.iter_mut().find(|counted| counted.0 == part) {
        Some(counted) => counted.1 += 1,
        None => parts.push((part, 1)),
    }
}
