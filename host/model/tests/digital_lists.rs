//! Request e of document 02, a digital post: every short list of calls.

mod common;

use chuldariin_model::*;
use common::linked::{closed, measured};
use common::LARGEST;

/// Windows of one reading stand for samples of that high level.
const A: Event = Event::Sample(&[12_000]);
const C: Event = Event::Sample(&[6_000]);

/// What one place of a list may bring, all at one time.
const PLACES: [&[Event]; 14] = [
    &[C, A, A],
    &[C, C, C, C],
    &[Event::Tick],
    &[C, Event::Link(0)],
    &[C, Event::Link(5_999)],
    &[C, Event::Link(6_000)],
    &[C, Event::Link(80_000)],
    &[C, Event::Link(80_001)],
    &[C, Event::Limit(5_999)],
    &[C, Event::Limit(6_000)],
    &[C, Event::Measure([17_600, 0, 0])],
    &[C, Event::Measure([LARGEST, 0, 0])],
    &[C, Event::Fault(3)],
    &[C, Event::Clear],
];

/// What was seen in lists of calls.
#[derive(Clone, Copy, Debug, Default)]
struct Seen {
    refused: u32,
    resets: u32,
    latched: u32,
    stopped: u32,
    closings: u32,
    /// Samples at which only the grant was missing.
    withheld: u32,
}

impl Seen {
    fn add(&mut self, other: &Seen) {
        self.refused += other.refused;
        self.resets += other.resets;
        self.latched += other.latched;
        self.stopped += other.stopped;
        self.closings += other.closings;
        self.withheld += other.withheld;
    }
}

/// A list of calls, and what follows from them beside the model's own state.
#[derive(Clone, Copy)]
struct List {
    state: State,
    limit: u32,
    grant: u32,
    /// High levels of the settled state and of the previous sample.
    settled: Option<i32>,
    previous: Option<i32>,
    fault: bool,
    wave: u32,
    closed: bool,
    overrun: Option<u64>,
    stop: Option<u64>,
    seen: Seen,
}

impl List {
    /// Closed, with a grant of 16,000 and an over-run since 1,040.
    fn begun() -> List {
        let mut post = closed(16_000);
        post.ready(1_040, 1_040);
        assert_eq!(measured(&mut post, 1_040, 17_601), Some(1_040));
        List {
            state: post.state,
            limit: 32_000,
            grant: 16_000,
            settled: Some(6_000),
            previous: Some(6_000),
            fault: false,
            wave: 50,
            closed: true,
            overrun: Some(1_040),
            stop: None,
            seen: Seen::default(),
        }
    }

    /// One call, held to what follows from the list.
    fn call(&mut self, time: u64, event: Event) {
        let levels = |readings: &[i32]| Ok((readings[0], -12_000));
        let (state, outcome) = self.state.call_evaluated(levels, time, &event);
        if event == Event::Link(80_001) {
            let reply = Reply::of(&self.state, 11);
            assert_eq!(
                (outcome, state),
                (Outcome::without_steps(reply), self.state)
            );
            self.seen.refused += 1;
            return;
        }
        assert_eq!(outcome.reply.refusal, 0);
        self.bring(time, event);
        self.reset(&outcome);
        self.latch(time, event, &outcome);
        self.command(time, &outcome);
        self.switch(time, &outcome);
        assert_eq!(state.grant, self.grant);
        assert_eq!((state.overrun, state.stop), (self.overrun, self.stop));
        self.state = state;
    }

    fn bring(&mut self, time: u64, event: Event) {
        match event {
            Event::Sample(readings) => self.settle(readings[0]),
            Event::Limit(limit) => self.limit = limit,
            Event::Measure(lines) => self.judge(time, lines[0]),
            Event::Fault(_) => self.fault = true,
            Event::Clear => self.fault = false,
            Event::Tick => {}
            Event::Link(granted) => self.grant = granted,
        }
    }

    fn settle(&mut self, high: i32) {
        if self.previous == Some(high) {
            self.settled = Some(high);
        }
        self.previous = Some(high);
    }

    /// An over-run against the least of grant, rated and limit.
    fn judge(&mut self, time: u64, current: u32) {
        let allowed = self.grant.min(32_000).min(self.limit);
        if self.closed && self.wave == 50 {
            let over = 10 * current > 11 * allowed;
            self.overrun = self.overrun.or(Some(time)).filter(|_| over);
        }
    }

    /// No grant with A settled.
    fn reset(&mut self, outcome: &Outcome) {
        let reset = self.settled == Some(12_000) && self.grant > 0;
        assert_eq!(outcome.grant_reset, reset);
        self.grant = if reset { 0 } else { self.grant };
        self.seen.resets += u32::from(reset);
    }

    /// Fault 2, and what a latch unsettles and forgets.
    fn latch(&mut self, time: u64, event: Event, outcome: &Outcome) {
        let old = self.overrun.is_some_and(|start| time - start >= 5_000);
        assert_eq!(outcome.latched[1], old, "{event:?} at {time}");
        self.fault |= old;
        if old || matches!(event, Event::Fault(_)) {
            (self.settled, self.previous) = (None, None);
        }
        self.seen.latched += u32::from(old);
    }

    /// The wave, and the over-run and stop that hang on it.
    fn command(&mut self, time: u64, outcome: &Outcome) {
        let offered = self.settled == Some(6_000) && self.limit >= 6_000;
        let held = self.closed && self.grant < 6_000;
        self.wave = match (self.fault, offered && !held) {
            (true, _) => 0,
            (false, true) => 50,
            (false, false) => 1_000,
        };
        assert_eq!(outcome.reply.wave, self.wave);
        let stops = self.closed && self.wave == 1_000;
        self.stop = self.stop.or(stops.then_some(time));
        self.stop = self.stop.filter(|_| self.wave != 50);
        self.overrun = self.overrun.filter(|_| self.wave == 50);
    }

    /// The contactor: a stop opens, and closing wants the grant.
    fn switch(&mut self, time: u64, outcome: &Outcome) {
        let old = self.stop.is_some_and(|start| time - start >= 3_000);
        assert_eq!(outcome.causes[3], old);
        if outcome.opened {
            (self.overrun, self.stop, self.previous) = (None, None, None);
        }
        let granted = true;
        let others = Conditions {
            granted,
            ..outcome.conditions
        }
        .all();
        assert_eq!(outcome.closing, others && self.grant >= 6_000);
        self.closed = outcome.reply.closed;
        self.seen.stopped += u32::from(old);
        self.seen.closings += u32::from(outcome.closing);
        self.seen.withheld += u32::from(others && !outcome.closing);
    }

    /// Every list that goes on from here, with a place at each of these times.
    fn go_on(&self, times: &[u64]) -> Seen {
        let Some((&time, later)) = times.split_first() else {
            return self.seen;
        };
        let mut seen = Seen::default();
        for place in PLACES {
            let mut list = *self;
            place.iter().for_each(|&event| list.call(time, event));
            seen.add(&list.go_on(later));
        }
        seen
    }
}

#[test]
fn every_short_list_is_held_to_the_grant() {
    let seen = List::begun().go_on(&[1_540, 3_040, 4_540, 6_040, 7_540]);
    for (what, count) in [
        ("refused", seen.refused),
        ("resets", seen.resets),
        ("latched", seen.latched),
        ("stopped", seen.stopped),
        ("closings", seen.closings),
        ("withheld", seen.withheld),
    ] {
        assert!(count > 1_000, "{what} {count}");
    }
}
