//! The time of the axis: the post's own of each list, one list behind the other.

use crate::lists::{Lists, Moment};

/// A list on the axis.
struct Placed {
    /// Its begin, on the axis.
    start: u64,
    /// The axis is so much ahead of the post's clock in it.
    ahead: u64,
}

/// Where each list stands on the axis. One that starts at an earlier time than the list before it has reached stands
/// behind that list; any other at its own time.
#[derive(Default)]
pub struct Clock(Vec<Placed>);

impl Clock {
    pub fn of(lists: &Lists) -> Clock {
        let mut clock = Clock::default();
        clock.grow(lists);
        clock
    }

    /// Adds the lists that have come since.
    pub fn grow(&mut self, lists: &Lists) {
        for number in self.0.len() as u32 + 1..=lists.count() {
            self.add(lists, number);
        }
    }

    fn add(&mut self, lists: &Lists, number: u32) {
        let Some(list) = lists.get(number) else {
            return;
        };
        let before = lists.get(number - 1).zip(self.0.last());
        let ahead = match before {
            None => 0,
            Some((_, placed)) if list.runs_on => placed.ahead,
            Some((before, placed)) => placed.ahead.saturating_add(before.end - list.begin),
        };
        let start = list.begin.saturating_add(ahead);
        self.0.push(Placed { start, ahead });
    }

    /// The place of a moment on the axis: no later than the next list.
    pub fn at(&self, moment: Moment) -> u64 {
        let next = self.0.get(moment.list as usize);
        let next = next.map_or(u64::MAX, |next| next.start);
        moment
            .time
            .saturating_add(self.ahead(moment.list))
            .min(next)
    }

    /// The post's time in a list at a place of the axis.
    pub fn own(&self, list: u32, at: u64) -> u64 {
        at.saturating_sub(self.ahead(list))
    }

    fn ahead(&self, list: u32) -> u64 {
        let place = (list as usize).checked_sub(1);
        let placed = place.and_then(|place| self.0.get(place));
        placed.map_or(0, |placed| placed.ahead)
    }

    /// The moment at a place of the axis.
    pub fn moment(&self, at: u64) -> Moment {
        let list = self.0.partition_point(|list| list.start <= at).max(1) as u32;
        let time = self.own(list, at);
        Moment { list, time }
    }

    /// The start of the first list.
    pub fn start(&self) -> Option<u64> {
        self.0.first().map(|list| list.start)
    }

    /// The lists between two places, by number, each with its first place there and its last. Where one ends and the
    /// next begins is of the next.
    pub fn between(&self, from: u64, to: u64) -> impl Iterator<Item = (u32, u64, u64)> + '_ {
        let ends = self.0.iter().skip(1).map(|next| next.start.checked_sub(1));
        let lists = self.0.iter().zip(ends.chain([Some(u64::MAX)]));
        (1..).zip(lists).filter_map(move |(number, (list, end))| {
            let (first, last) = (list.start.max(from), end?.min(to));
            (first <= last).then_some((number, first, last))
        })
    }
}
