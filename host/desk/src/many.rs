//! Many logs, replayed side by side and sorted by trouble, for the command `summary`.

use crate::case::Case;
use crate::input::{shown, Bad, Damage, Lines, Taken, Unfit};
use crate::lists::Lists;
use crate::source::Source;
use crate::summary::Summary;
use crate::turn::{Archive, Asked};
use chuldariin_log::{Entry, Line};
use std::cmp::Reverse;
use std::error::Error;
use std::sync::atomic::{AtomicUsize, Ordering};
use std::sync::mpsc::sync_channel;
use std::sync::Mutex;

/// What a log comes to.
pub struct Whole {
    pub summary: Summary,
    pub lists: Lists,
    pub damage: Damage,
}

/// A log and what it comes to, or why it is not replayed.
pub struct Replayed {
    pub name: String,
    pub whole: Result<Whole, Broken>,
}

/// Why a log is not replayed.
type Broken = Box<dyn Error + Send + Sync>;

/// So many lines are handed over at once: a core that waits takes its time to wake.
const BATCH: usize = 2_048;
/// So often, before the one who reads has to wait; a window takes up to 4 kB.
const QUEUE: usize = 4;

/// Replays logs side by side.
pub fn all(names: &[String], bad: Bad) -> Vec<Replayed> {
    let cores = std::thread::available_parallelism().map_or(1, usize::from);
    let next = AtomicUsize::new(0);
    let done = Mutex::new(Vec::new());
    // Where there are more cores than logs, a log has two.
    let asks_ahead = cores > names.len();
    let next_log = || names.get(next.fetch_add(1, Ordering::Relaxed));
    let work = || {
        while let Some(name) = next_log() {
            let whole = whole(name, bad, asks_ahead);
            let name = shown(name).to_string();
            // A thread that broke off has left nothing half done here.
            let mut done = done.lock().unwrap_or_else(|broken| broken.into_inner());
            done.push(Replayed { name, whole });
        }
    };
    std::thread::scope(|scope| {
        (0..cores.min(names.len())).for_each(|_| {
            scope.spawn(work);
        });
    });
    let mut done = done
        .into_inner()
        .unwrap_or_else(|broken| broken.into_inner());
    done.sort_by(|a, b| (Reverse(trouble(a)), &a.name).cmp(&(Reverse(trouble(b)), &b.name)));
    done
}

/// The worse a log, the greater: not replayed, nothing begun, a contact that did not follow, replies that differ, openings that are
/// trouble, the longest silence, refusals.
fn trouble(log: &Replayed) -> [u64; 6] {
    let Ok(Whole { summary, .. }) = &log.whole else {
        return [2, 0, 0, 0, 0, 0];
    };
    let records = &summary.records;
    [
        u64::from(summary.lists == 0),
        records.contact(),
        records.differ,
        summary.switching.troubled,
        summary.longest_silence(),
        summary.refused(),
    ]
}

fn whole(name: &str, bad: Bad, asks_ahead: bool) -> Result<Whole, Broken> {
    let named = |unfit: Unfit| unfit.to_string();
    let input = Source::of(name).and_then(|source| source.open());
    let input = input.map_err(|error| named(error.into()))?;
    let mut lines = Lines::new(input, bad).map_err(named)?;
    let mut counted = Counted::default();
    if asks_ahead {
        return counted.ahead(lines);
    }
    while let Some(taken) = lines.next().map_err(named)? {
        counted.see(&taken, None)?;
    }
    Ok(counted.end(lines.damage))
}

/// A line, and what the archive answered if it is a call.
type Ahead = (Taken, Option<Asked>);

/// Reads lines and puts their calls to the archive, as long as somebody takes them.
fn ask_ahead(mut lines: Lines, send: impl Fn(Vec<Ahead>) -> bool) -> Result<Damage, Unfit> {
    let mut archive = Archive::default();
    let mut batch = Vec::with_capacity(BATCH);
    while let Some(taken) = lines.next()? {
        let asked = match &taken {
            Taken::Entry(Entry {
                what: Line::Call(call),
                ..
            }) => Some(archive.ask(call)),
            _ => None,
        };
        batch.push((taken, asked));
        if batch.len() == BATCH && !send(std::mem::replace(&mut batch, Vec::with_capacity(BATCH))) {
            break;
        }
    }
    send(batch);
    Ok(lines.damage)
}

#[derive(Default)]
struct Counted {
    case: Case,
    summary: Summary,
}

impl Counted {
    fn see(&mut self, taken: &Taken, asked: Option<&Asked>) -> Result<(), Broken> {
        if let Taken::Entry(entry) = taken {
            let seen = self.case.see_asked(entry, asked)?;
            self.summary.see(&seen);
        }
        Ok(())
    }

    /// One core reads and asks the archive, and this one explains.
    fn ahead(mut self, lines: Lines) -> Result<Whole, Broken> {
        std::thread::scope(|scope| {
            let (send, receive) = sync_channel::<Vec<Ahead>>(QUEUE);
            let reader = scope.spawn(move || ask_ahead(lines, |batch| send.send(batch).is_ok()));
            let mut batches = receive.iter().flatten();
            let seen = batches.try_for_each(|(taken, asked)| self.see(&taken, asked.as_ref()));
            // The reader ends when nobody takes its lines any more.
            drop(batches);
            drop(receive);
            let damage = reader.join().map_err(|_| "the log's reader broke off")?;
            seen?;
            Ok(self.end(damage.map_err(|unfit| unfit.to_string())?))
        })
    }

    fn end(mut self, damage: Damage) -> Whole {
        self.summary.finish(&self.case);
        Whole {
            summary: self.summary,
            lists: self.case.lists,
            damage,
        }
    }
}
