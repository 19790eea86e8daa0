//! Request f of document 02: every short list of calls.

mod common;

use chuldariin_model::*;
use common::latched::{digital_over_running, over_running, told, told_open};
use common::{Post, LARGEST, NO_FAULT};

/// Two readings stand for a sample of that high and low level.
const B: Event = Event::Sample(&[9_000, -12_000]);
const C: Event = Event::Sample(&[6_000, -12_000]);
const BAD: Event = Event::Sample(&[6_000, 0]);
const OVER: Event = Event::Measure([LARGEST, 0, 0]);

/// What one place of a list may bring: calls 10 before its time, and at its time.
const PLACES: [(&[Event], &[Event]); 13] = [
    (&[C], &[C]),
    (&[C], &[Event::Tick]),
    (&[C], &[Event::Limit(16_000), Event::Limit(32_000)]),
    (&[C], &[Event::Measure([0; 3])]),
    (&[C, BAD], &[BAD]),
    (&[C], &[BAD, BAD]),
    (&[C], &[Event::Fault(3)]),
    (&[C], &[Event::Fault(4), Event::Fault(3)]),
    (&[C], &[Event::Fault(5), Event::Fault(5)]),
    (&[C], &[Event::Fault(2), Event::Fault(6), Event::Fault(1)]),
    (&[C], &[Event::Clear]),
    (&[B, B, Event::Link(16_000)], &[C, C, OVER]),
    (&[C], &[Event::Link(80_001), Event::Clear, Event::Fault(4)]),
];

/// What was seen in lists of calls.
#[derive(Clone, Copy, Debug, Default)]
struct Seen {
    refused: u32,
    diode_and_over_current: u32,
    own_and_over_current: u32,
    cleared_and_over_current: u32,
    again: u32,
    /// Calls after which the first fault is not the one with the least number.
    not_the_least: u32,
}

impl Seen {
    fn add(&mut self, other: &Seen) {
        self.refused += other.refused;
        self.diode_and_over_current += other.diode_and_over_current;
        self.own_and_over_current += other.own_and_over_current;
        self.cleared_and_over_current += other.cleared_and_over_current;
        self.again += other.again;
        self.not_the_least += other.not_the_least;
    }

    /// An accepted call, and the state before it.
    fn call(&mut self, state: &State, event: &Event, outcome: &Outcome) {
        let latched = outcome.latched;
        self.diode_and_over_current += u32::from(latched[0] && latched[1]);
        if let Event::Fault(kind) = *event {
            self.own_and_over_current += u32::from(latched[1]);
            self.again += u32::from(state.faults[kind as usize - 1]);
        }
        self.cleared_and_over_current += u32::from(*event == Event::Clear && latched[1]);
        let least = (1..=5).find(|&fault| outcome.reply.faults[fault as usize - 1]);
        self.not_the_least += u32::from(least.unwrap_or(0) != outcome.reply.told.unwrap());
    }
}

/// The fault that an accepted call tells, from the one told before it and the
/// faults that are latched after it. No order is kept for that.
fn first(before: u32, event: &Event, faults: [bool; 5]) -> u32 {
    match *event {
        _ if faults == NO_FAULT => 0,
        Event::Clear => 2,
        _ if before != 0 => before,
        Event::Fault(kind) => kind,
        _ if faults[0] => 1,
        _ => 2,
    }
}

/// A list of calls, and the fault that its last reply must have told.
#[derive(Clone, Copy)]
struct List {
    state: State,
    first: u32,
    seen: Seen,
}

impl List {
    fn from(state: State) -> List {
        let (first, seen) = (0, Seen::default());
        List { state, first, seen }
    }

    /// One call, held to the first fault of the list.
    fn call(&mut self, time: u64, event: &Event) {
        let levels = |readings: &[i32]| Ok((readings[0], readings[1]));
        let (state, outcome) = self.state.call_evaluated(levels, time, event);
        let reply = outcome.reply;
        if reply.refusal == 0 {
            self.first = first(self.first, event, reply.faults);
            self.seen.call(&self.state, event, &outcome);
        } else {
            assert_eq!(state, self.state);
            self.seen.refused += 1;
        }
        assert_eq!(told(reply), self.first, "{event:?} at {time}");
        self.lend(time, event, &state, &outcome);
        self.state = state;
    }

    /// The same call without the order: the fault is open, and all else is the same.
    fn lend(&self, time: u64, event: &Event, next: &State, outcome: &Outcome) {
        let order = None;
        let lent = State {
            order,
            ..self.state
        };
        let levels = |readings: &[i32]| Ok((readings[0], readings[1]));
        let (other, same) = lent.call_evaluated(levels, time, event);
        assert_eq!(other, State { order, ..*next });
        told_open(same.reply);
        let reply = Reply {
            told: None,
            ..outcome.reply
        };
        assert_eq!(same, Outcome { reply, ..*outcome });
    }

    /// Every list that goes on from here, with a place at each of these times.
    fn go_on(&self, times: &[u64]) -> Seen {
        let Some((&time, later)) = times.split_first() else {
            return self.seen;
        };
        let mut seen = Seen::default();
        for (before, at) in PLACES {
            let mut list = *self;
            before.iter().for_each(|event| list.call(time - 10, event));
            at.iter().for_each(|event| list.call(time, event));
            seen.add(&list.go_on(later));
        }
        seen
    }
}

/// Every list that goes on from this post, whose over-run from 50 on is 5,000 old at
/// the first time. One from the third time on, after a clear and a pause, is so at
/// the fifth.
fn every_list_from(post: Post) {
    let list = List::from(post.state);
    let seen = list.go_on(&[5_050, 7_550, 10_050, 12_550, 15_050]);
    for (what, count) in [
        ("refused", seen.refused),
        ("1 and 2", seen.diode_and_over_current),
        ("own and 2", seen.own_and_over_current),
        ("clear and 2", seen.cleared_and_over_current),
        ("again", seen.again),
        ("not the least", seen.not_the_least),
    ] {
        assert!(count > 1_000, "{what} {count}");
    }
}

#[test]
fn every_short_list_shows_its_first() {
    every_list_from(over_running(5_030));
}

#[test]
fn every_short_list_of_a_digital_post_shows_its_first() {
    every_list_from(digital_over_running(5_030));
}
