//! What the post recorded beside its calls, as it is drawn.

use super::clock::Clock;
use super::track::Run;
use super::window::Window;
use crate::case::{Case, Seen, What, AHEAD};
use crate::contact::{Event, Failing, Fails};
use crate::lists::Moment;
use crate::recorded::Difference;
use chuldariin_log::Told;

/// A time in which the contact does not follow its command.
pub struct Failed {
    pub from: u64,
    pub to: u64,
    pub fails: Fails,
    /// It follows again; else it fails up to the end of the log.
    pub over: bool,
}

/// The records of a log, or of a part of it. Times are places of the axis, ms.
#[derive(Default)]
pub struct Records {
    /// The contactor as the post was told, as far as it kept that.
    pub told: Vec<Run<Option<bool>>>,
    /// Where a reply was told otherwise than commanded: the place of its words.
    pub differs: Vec<Run<usize>>,
    pub differences: Vec<String>,
    pub contact: Vec<Run<bool>>,
    pub failed: Vec<Failed>,
    pub panel: Vec<Run<String>>,
    /// The last record that has a time of its own.
    pub end: u64,
    latest: Moment,
}

impl Records {
    /// One more line of the log, and the latest call.
    pub fn see(&mut self, seen: &Seen, now: Moment, clock: &Clock, window: &Window) {
        let begins = matches!(&seen.what, What::Call(turn) if turn.begins());
        if begins {
            self.begin(clock.at(now));
        }
        if let Some(Event::Ends(failing, long)) = seen.contact {
            // What a begin ends was of the list before.
            let list = now.list - u32::from(begins && now.list > 1);
            self.fail(&failing, long, list, clock, window);
        }
        // One that is far ahead of the calls does not stretch the axis further.
        let moment = match seen.what {
            What::Contact(_) | What::Panel(_) => Moment {
                list: now.list,
                time: seen.moment.time.min(now.time.saturating_add(AHEAD)),
            },
            What::Told(..) => now,
            _ => return,
        };
        self.latest = self.latest.max(moment);
        if window.to.is_none_or(|to| moment <= to.moment) {
            self.record(&seen.what, moment, clock, window);
        }
    }

    fn record(&mut self, what: &What, moment: Moment, clock: &Clock, window: &Window) {
        // What was recorded before the part holds at its start.
        let at = clock.at(moment);
        let shown = window.from.map_or(at, |from| from.at.max(at));
        match what {
            What::Told(told, differences) => {
                self.tell(shown, told);
                let differences = differences.as_deref().unwrap_or(&[]);
                if !differences.is_empty() && window.has(moment) {
                    self.differ(at, differences);
                }
            }
            What::Contact(closed) => keep(&mut self.contact, shown, *closed),
            What::Panel(text) => keep(&mut self.panel, shown, text.to_string()),
            _ => {}
        }
    }

    fn tell(&mut self, at: u64, told: &Told) {
        if told.closed.is_some() || self.told.is_empty() {
            keep(&mut self.told, at, told.closed);
        }
    }

    fn differ(&mut self, at: u64, differences: &[Difference]) {
        let words: Vec<String> = differences.iter().map(Difference::words).collect();
        let words = words.join("; ");
        // Most are like the one before.
        if self.differences.last() != Some(&words) {
            self.differences.push(words);
        }
        self.differs.push((at, self.differences.len() - 1));
    }

    /// A new list: no record of the one before it stands in it.
    fn begin(&mut self, start: u64) {
        pull(&mut self.told, start);
        pull(&mut self.contact, start);
        pull(&mut self.panel, start);
    }

    fn fail(&mut self, failing: &Failing, long: u64, list: u32, clock: &Clock, window: &Window) {
        let place = |time: u64| clock.at(Moment { list, time });
        let (from, to) = (
            place(failing.from),
            place(failing.from.saturating_add(long)),
        );
        if window.overlaps(from, to) {
            self.failed.push(Failed {
                from,
                to,
                fails: failing.fails,
                over: true,
            });
        }
    }

    /// The log is over.
    pub fn finish(&mut self, case: &Case, clock: &Clock, window: &Window) {
        self.end = clock.at(self.latest);
        if let Some((failing, long)) = case.contact_at_end() {
            let known = self.failed.len();
            self.fail(&failing, long, case.lists.count(), clock, window);
            let last = self.failed.iter_mut().skip(known);
            last.for_each(|failed| failed.over = false);
        }
    }
}

/// Adds a value if it is another. Of those at one place the last one counts.
fn keep<T: PartialEq>(runs: &mut Vec<Run<T>>, at: u64, value: T) {
    while runs.last().is_some_and(|last| last.0 >= at) {
        runs.pop();
    }
    if runs.last().is_none_or(|last| last.1 != value) {
        runs.push((at, value));
    }
}

fn pull<T>(runs: &mut [Run<T>], start: u64) {
    if let Some(last) = runs.last_mut() {
        last.0 = last.0.min(start);
    }
}
