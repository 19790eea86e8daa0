//! The readings of `src/lib.rs`, mostly on controllers that a host altered.

mod common;

use chuldariin_model::*;
use common::{charging, window};

#[test]
fn no_sound_sample_so_far_opens() {
    let mut state = charging();
    state.sound = None;
    let (next, outcome) = state.call(10_000, &Event::Tick);
    assert_eq!(outcome.causes, [false, true, false, false, false]);
    assert!(outcome.opened && !next.closed && next.previous.is_none());
    assert_eq!(next.opening, Some(10_000));
}

#[test]
fn old_over_run_latches_with_the_contactor_open() {
    let mut state = charging();
    state.closed = false;
    state.overrun = Some(5_000);
    // A measure ends no over-run with the contactor open.
    let (next, outcome) = state.call(10_000, &Event::Measure([0; 3]));
    assert_eq!(outcome.latched, [false, true, false, false, false]);
    assert_eq!((next.wave, next.overrun, next.settled), (0, None, None));
    state.overrun = Some(5_001);
    let (next, _) = state.call(10_000, &Event::Measure([0; 3]));
    assert_eq!(next.overrun, Some(5_001));
}

#[test]
fn latch_of_a_latched_fault_unsettles_and_forgets() {
    for fault in [1, 2] {
        let mut state = charging();
        state.faults[fault - 1] = true;
        state.previous = Some(verdict(6_000, 0, driven(false, 533), false));
        if fault == 2 {
            state.overrun = Some(0);
        }
        let bad = window(6_000, 0);
        let event = if fault == 1 {
            Event::Sample(&bad)
        } else {
            Event::Tick
        };
        let (next, outcome) = state.call(10_000, &event);
        assert!(outcome.latched[fault - 1]);
        assert_eq!((next.settled, next.previous), (None, None));
    }
}

#[test]
fn fault_call_again_unsettles_and_forgets() {
    let mut state = charging();
    state.closed = false;
    let (state, _) = state.call(10_000, &Event::Fault(3));
    let twelve = window(12_000, 12_000);
    let (state, _) = state.call(10_010, &Event::Sample(&twelve));
    let (state, outcome) = state.call(10_020, &Event::Sample(&twelve));
    assert_eq!(state.settled, Some(Band::A));
    assert_eq!((outcome.reply.letter, outcome.reply.digit), (b'F', 0));
    let (again, _) = state.call(10_030, &Event::Fault(3));
    assert_eq!((again.settled, again.previous), (None, None));
    let (cleared, outcome) = state.call(10_030, &Event::Clear);
    assert_eq!(cleared.settled, Some(Band::A));
    assert_eq!((outcome.reply.letter, outcome.reply.digit), (b'A', 1));
}

#[test]
fn pair_counts_in_step_4_after_a_latch() {
    let mut state = charging();
    state.previous = Some(verdict(6_000, 0, driven(false, 533), false));
    let (next, outcome) = state.call(10_000, &Event::Sample(&window(6_000, 0)));
    assert_eq!(outcome.latched, [true, false, false, false, false]);
    assert_eq!(outcome.causes, [true, false, false, false, true]);
    assert!(!outcome.conditions.previous_proven && next.previous.is_none());
}

#[test]
fn driven_wave_ends_the_stop_with_the_contactor_open() {
    let mut state = charging();
    state.closed = false;
    state.stop = Some(9_000);
    assert_eq!(state.call(10_000, &Event::Tick).0.stop, None);
    assert_eq!(state.call(10_000, &Event::Limit(0)).0.stop, Some(9_000));
    assert_eq!(state.call(10_000, &Event::Fault(4)).0.stop, Some(9_000));
}

#[test]
fn settled_d_without_ventilation_opens() {
    let mut state = charging();
    state.previous = Some(verdict(3_000, -12_000, driven(false, 533), false));
    let (next, outcome) = state.call(10_000, &Event::Sample(&window(3_000, -12_000)));
    assert_eq!(outcome.causes, [false, false, true, false, false]);
    assert_eq!((next.wave, next.stop), (1_000, None));
    state.ventilation = true;
    let (next, outcome) = state.call(10_000, &Event::Sample(&window(3_000, -12_000)));
    assert_eq!(outcome.causes, [false; 5]);
    assert!(next.closed && next.wave == 533);
}

#[test]
fn closing_wants_one_band() {
    let mut state = charging();
    state.closed = false;
    state.ventilation = true;
    let (next, outcome) = state.call(10_010, &Event::Sample(&window(3_000, -12_000)));
    assert!(outcome.conditions.this_proven && outcome.conditions.previous_proven);
    assert!(!outcome.conditions.same_band && !outcome.closing);
    let (next, outcome) = next.call(10_020, &Event::Sample(&window(3_000, -12_000)));
    assert!(outcome.closing && next.closings == 2);
    assert_eq!(outcome.reply.letter, b'D');
}

#[test]
fn last_closing_that_fits() {
    let mut state = charging();
    state.closed = false;
    state.closings = 1_000_000_001;
    let ready = window(6_000, -12_000);
    let (next, outcome) = state.call(10_000, &Event::Sample(&ready));
    assert!(outcome.closing && next.closings == 1_000_000_002);
    let (same, outcome) = next.call(10_000, &Event::Sample(&ready));
    assert_eq!((outcome.reply.refusal, same), (1, next));
    assert_eq!(outcome.reply.closings, 1_000_000_002);
}

/// A small random source, enough to stir states.
struct Dice(u64);

impl Dice {
    fn roll(&mut self, sides: u64) -> u64 {
        self.0 ^= self.0 << 13;
        self.0 ^= self.0 >> 7;
        self.0 ^= self.0 << 17;
        (self.0 >> 11) % sides
    }

    fn one<T: Copy>(&mut self, of: &[T]) -> T {
        of[self.roll(of.len() as u64) as usize]
    }

    /// One of these, and once in 16 rolls one of the odd ones.
    fn mostly<T: Copy>(&mut self, of: &[T], odd: &[T]) -> T {
        let of = if self.roll(16) == 0 { odd } else { of };
        self.one(of)
    }

    fn time(&mut self) -> Option<u64> {
        let in_order = [None, Some(0), Some(5_000), Some(9_950), Some(10_000)];
        self.mostly(&in_order, &[Some(u64::MAX)])
    }

    /// Of an over-run or a stop, which does not run in most states.
    fn start(&mut self) -> Option<u64> {
        let start = self.time();
        self.one(&[None, None, None, start])
    }

    fn lines(&mut self) -> [u32; 3] {
        [0; 3].map(|_| self.mostly(&[0, 6_600, 35_178, 35_179, 200_000], &[200_001, u32::MAX]))
    }

    fn limit(&mut self) -> u32 {
        self.mostly(&[0, 5_999, 6_000, 32_000, 80_000], &[80_001, u32::MAX])
    }

    fn grant(&mut self) -> u32 {
        self.mostly(&[0, 5_999, 6_000, 16_000, 80_000], &[80_001, u32::MAX])
    }

    /// A wave of this mark; an odd one is of the other mark or of none.
    fn wave(&mut self, digital: bool) -> u32 {
        if digital {
            self.mostly(&[0, 50, 50, 1_000], &[100, 533, u32::MAX])
        } else {
            self.mostly(&[0, 100, 533, 960, 1_000], &[50, u32::MAX])
        }
    }

    fn verdict(&mut self) -> Option<Verdict> {
        let (a, b, c, d) = (Band::A, Band::B, Band::C, Band::D);
        let band = self.one(&[None, Some(a), Some(b), Some(c), Some(c), Some(c), Some(d)]);
        let (sound, proven, diode_bad) = (self.roll(2) == 0, self.roll(2) == 0, self.roll(2) == 0);
        let there = Verdict {
            band,
            sound,
            proven,
            diode_bad,
        };
        self.one(&[None, Some(there), Some(there)])
    }

    /// A controller of either mark.
    fn state(&mut self) -> State {
        let digital = self.roll(2) == 0;
        State {
            rated: self.mostly(&[6_000, 32_000, 80_000], &[0, u32::MAX]),
            pause: self.mostly(&[1_000, 60_000], &[0, u64::MAX]),
            ventilation: self.roll(2) == 0,
            digital,
            limit: self.limit(),
            grant: self.grant(),
            lines: self.lines(),
            wave: self.wave(digital),
            closed: self.roll(2) == 0,
            settled: self.one(&[None, Some(Band::A), Some(Band::C), Some(Band::D)]),
            faults: [0; 5].map(|_| self.roll(16) == 0),
            order: None,
            last: self.mostly(&[10_000], &[0, u64::MAX]),
            sound: self.time(),
            opening: self.time(),
            overrun: self.start(),
            stop: self.start(),
            previous: self.verdict(),
            closings: self.mostly(&[0, 1_000_000_001], &[u32::MAX]),
        }
    }

    /// Such a controller, or one with nearly all that a closing wants.
    fn maybe_ready(&mut self) -> State {
        let state = self.state();
        let ready = State {
            closed: false,
            faults: [false; 5],
            opening: None,
            overrun: None,
            previous: Some(verdict(6_000, -12_000, true, false)),
            ..state
        };
        self.one(&[state, ready])
    }

    fn event<'a>(&mut self, windows: &'a [Vec<i32>]) -> Event<'a> {
        match self.roll(12) {
            0..=2 => Event::Sample(&windows[self.roll(windows.len() as u64) as usize]),
            3 => Event::Limit(self.limit()),
            4 => Event::measure_one(self.lines()[0]),
            5 => Event::Measure(self.lines()),
            6 => Event::Fault(self.roll(8) as u32),
            7 => Event::Clear,
            8 | 9 => Event::Link(self.grant()),
            _ => Event::Tick,
        }
    }
}

/// What must hold of any call on any state.
fn hold_together(state: &State, time: u64, event: &Event, next: &State, outcome: &Outcome) {
    assert_eq!(outcome.reply, Reply::of(next, outcome.reply.refusal));
    assert_eq!(outcome.opened, state.closed && !next.closed);
    assert_eq!(outcome.closing, !state.closed && next.closed);
    assert_eq!(outcome.opened, outcome.causes.contains(&true));
    assert_eq!(outcome.closing, outcome.conditions.all());
    if outcome.reply.refusal == 0 {
        assert_eq!(next.last, time);
        match *event {
            Event::Measure(lines) => assert_eq!(next.lines, lines),
            _ => assert_eq!(next.lines, state.lines),
        }
        hold_grant(state, event, next, outcome);
    } else {
        assert_eq!((next, outcome.grant_reset), (state, false));
    }
}

/// What must hold of the grant after any accepted call.
fn hold_grant(state: &State, event: &Event, next: &State, outcome: &Outcome) {
    let stored = match *event {
        Event::Link(granted) => granted,
        _ => state.grant,
    };
    // A that was settled before is so after step 1, unless a sample settles another.
    let sample = matches!(event, Event::Sample(_));
    let kept = state.settled == Some(Band::A) && !sample;
    if next.settled == Some(Band::A) || kept {
        assert_eq!((next.grant, outcome.grant_reset), (0, stored > 0));
    }
    assert_eq!(next.grant, if outcome.grant_reset { 0 } else { stored });
    let enough = next.grant >= 6_000;
    assert_eq!(outcome.conditions.granted, enough || !state.digital);
    if state.digital {
        assert!(enough || !outcome.closing);
        assert!(enough || !state.closed || next.wave != 50);
        assert!([0, 50, 1_000].contains(&next.wave));
    }
}

/// A plain post's call goes the same way under every grant in range.
fn plain_asks_no_grant(state: &State, time: u64, event: &Event, next: &State, outcome: &Outcome) {
    if state.digital || state.grant > 80_000 {
        return;
    }
    for grant in [0, 80_000] {
        let (other, same) = State { grant, ..*state }.call(time, event);
        let grant_reset = same.grant_reset;
        assert_eq!(
            same,
            Outcome {
                grant_reset,
                ..*outcome
            }
        );
        let grant = other.grant;
        assert_eq!(other, State { grant, ..*next });
    }
}

#[test]
fn any_state_takes_any_call() {
    let mut dice = Dice(0x9e37_79b9_7f4a_7c15);
    let levels = [
        (6_000, -12_000),
        (6_000, -12_000),
        (3_000, 0),
        (9_000, 9_000),
        (12_000, 12_000),
        (0, 15_001),
    ];
    let windows = levels.map(|(high, low)| window(high, low));
    // Accepted by a plain post and by a digital one, digital closings and resets.
    let mut seen = [0; 4];
    for _ in 0..100_000 {
        let state = dice.maybe_ready();
        let event = dice.event(&windows);
        let time = dice.mostly(&[10_000, 13_000, 1_000_000_000_000], &[0, u64::MAX]);
        let (next, outcome) = state.call(time, &event);
        hold_together(&state, time, &event, &next, &outcome);
        plain_asks_no_grant(&state, time, &event, &next, &outcome);
        seen[usize::from(state.digital)] += u32::from(outcome.reply.refusal == 0);
        seen[2] += u32::from(state.digital && outcome.closing);
        seen[3] += u32::from(state.digital && outcome.grant_reset);
    }
    assert!(seen.iter().all(|&count| count > 100), "{seen:?}");
}
