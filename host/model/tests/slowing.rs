//! Request c of document 02: a lowered duty restarts a running over-run.
//!
//! The wave is 533 unless a test changes it, and a limit of 16,000 lowers it to
//! 266. A line may carry up to 35,178 mA at 533 and up to 17,556 at 266.

mod common;

use chuldariin_model::*;
use common::{
    charging, unsupported, window, Post, ALLOWED, LARGEST, MAX_TIME, NO_FAULT, OVER_CURRENT,
    TOO_MUCH,
};

const LOWER: Event = Event::Limit(16_000);
const RAISE: Event = Event::Limit(32_000);
const ALLOWED_266: u32 = 17_556;
const TOO_MUCH_266: u32 = 17_557;

/// The charging controller with an over-run from this time on.
fn over_running(start: u64) -> State {
    State {
        overrun: Some(start),
        ..charging()
    }
}

/// The same at duty 266.
fn over_running_at_266(start: u64) -> State {
    State {
        wave: 266,
        limit: 16_000,
        ..over_running(start)
    }
}

/// An altered one: its wave is 533, and step 3 of any call will command 266.
fn too_high(start: u64) -> State {
    State {
        limit: 16_000,
        ..over_running(start)
    }
}

/// The controller after a call, which must lower the duty and restart the over-run.
fn restarts(state: &State, time: u64, event: Event) -> State {
    let (next, outcome) = state.call(time, &event);
    assert_eq!(outcome.reply.refusal, 0, "{event:?}");
    assert!(driven(false, state.wave) && driven(false, next.wave) && next.wave < state.wave);
    assert!(outcome.restarted && !outcome.latched[1], "{event:?}");
    assert_eq!(next.overrun, Some(time), "{event:?}");
    next
}

/// The controller after an accepted call, which must restart nothing.
fn no_restart(state: &State, time: u64, event: Event) -> State {
    let (next, outcome) = state.call(time, &event);
    assert_eq!(outcome.reply.refusal, 0, "{event:?}");
    assert!(!outcome.restarted, "{event:?}");
    next
}

/// What a van reads from a driven duty, mA.
fn announced(duty: u32) -> u32 {
    match reading(duty) {
        Ok(Reading::Current(current)) => current,
        other => panic!("{duty} reads {other:?}"),
    }
}

// ---- A lowered duty ----

#[test]
fn lowered_duty_restarts_a_running_over_run() {
    let next = restarts(&over_running(8_000), 10_010, LOWER);
    assert_eq!((next.wave, next.closed), (266, true));
    assert_eq!(next.faults, NO_FAULT);
}

#[test]
fn from_any_driven_duty_to_any_lower_one() {
    for wave in 100..=960 {
        for after in [100, 101, 266, 532, 533, 534, 850, 851, 959, 960] {
            let state = State {
                wave,
                rated: 80_000,
                ..over_running(9_000)
            };
            let (next, outcome) = state.call(10_000, &Event::Limit(announced(after)));
            assert_eq!(next.wave, after);
            assert_eq!(outcome.restarted, after < wave, "{wave} to {after}");
            let start = if after < wave { 10_000 } else { 9_000 };
            assert_eq!(next.overrun, Some(start), "{wave} to {after}");
        }
    }
}

#[test]
fn lower_limit_with_the_same_duty_leaves_it() {
    // 533 is the duty of 31,980 to 32,039; a rated 32,000 bounds every higher limit.
    for (rated, from, to) in [
        (32_000, 32_000, 32_000),
        (32_000, 32_000, 31_980),
        (32_000, 80_000, 32_001),
        (80_000, 32_039, 31_980),
    ] {
        let state = State {
            rated,
            limit: from,
            ..over_running(9_000)
        };
        let next = no_restart(&state, 10_010, Event::Limit(to));
        assert_eq!((next.wave, next.overrun), (533, Some(9_000)));
        let next = restarts(&next, 10_020, Event::Limit(31_979));
        assert_eq!(next.wave, 532);
    }
}

#[test]
fn no_over_run_runs_and_none_starts() {
    for lines in [[0; 3], [0, TOO_MUCH_266, 0], [LARGEST; 3]] {
        let state = State {
            lines,
            ..charging()
        };
        let next = no_restart(&state, 10_010, LOWER);
        assert_eq!((next.wave, next.overrun), (266, None), "{lines:?}");
    }
}

#[test]
fn kept_lines_are_not_asked() {
    let amounts = [0, ALLOWED_266, TOO_MUCH_266, ALLOWED, TOO_MUCH, u32::MAX];
    for lines in amounts.map(|amount| [0, 0, amount]) {
        let state = State {
            lines,
            ..over_running(9_000)
        };
        assert_eq!(restarts(&state, 10_010, LOWER).lines, lines);
    }
}

#[test]
fn over_run_of_any_line_restarts() {
    for line in 0..3 {
        let mut lines = [ALLOWED; 3];
        lines[line] = TOO_MUCH;
        let state = no_restart(&charging(), 10_010, Event::Measure(lines));
        assert_eq!(state.overrun, Some(10_010), "{lines:?}");
        restarts(&state, 10_020, LOWER);
    }
}

#[test]
fn restart_changes_nothing_else() {
    let (plain, plain_outcome) = charging().call(10_010, &LOWER);
    let (next, outcome) = over_running(8_000).call(10_010, &LOWER);
    let overrun = Some(10_010);
    assert_eq!(next, State { overrun, ..plain });
    let restarted = true;
    let expected = Outcome {
        restarted,
        ..plain_outcome
    };
    assert_eq!(outcome, expected);
}

// ---- Its edges in time ----

#[test]
fn over_run_of_4999_restarts() {
    for start in [10_000, 9_999, 5_002, 5_001] {
        assert!(restarts(&over_running(start), 10_000, LOWER).closed);
    }
}

#[test]
fn over_run_of_5000_has_latched() {
    for start in [5_000, 4_999, 0] {
        let (next, outcome) = over_running(start).call(10_000, &LOWER);
        assert!(!outcome.restarted && outcome.opened);
        assert_eq!((outcome.latched, next.faults), (OVER_CURRENT, OVER_CURRENT));
        assert_eq!((next.wave, next.overrun), (0, None));
        assert_eq!(next.limit, 16_000);
    }
}

#[test]
fn over_run_of_the_same_time_restarts() {
    let started = no_restart(&charging(), 10_010, Event::measure_one(TOO_MUCH));
    assert_eq!(started.overrun, Some(10_010));
    restarts(&started, 10_010, LOWER);
}

#[test]
fn restart_at_either_end_of_time() {
    for time in [0, MAX_TIME] {
        let state = State {
            last: time,
            sound: Some(time),
            ..over_running(time.saturating_sub(4_999))
        };
        assert!(restarts(&state, time, LOWER).closed);
    }
}

#[test]
fn fault_2_comes_5000_after_the_restart() {
    let restarted = restarts(&over_running(8_000), 10_010, LOWER);
    let ready = window(6_000, -12_000);
    for event in [
        Event::Tick,
        Event::Clear,
        Event::Sample(&ready),
        Event::measure_one(TOO_MUCH_266),
        LOWER,
        RAISE,
    ] {
        // Sound samples until then.
        let state = State {
            last: 15_000,
            sound: Some(15_000),
            ..restarted
        };
        let next = no_restart(&state, 15_009, event);
        assert_eq!((next.faults, next.overrun), (NO_FAULT, Some(10_010)));
        let next = no_restart(&state, 15_010, event);
        assert_eq!((next.faults, next.closed), (OVER_CURRENT, false));
    }
}

// ---- Lowered again, raised, repeated ----

#[test]
fn every_lowering_restarts_again() {
    let mut post = Post::closed();
    post.call(50, Event::measure_one(LARGEST));
    let mut time = 50;
    for limit in [30_000, 24_000, 18_000, 12_000, 6_000] {
        time += 4_999;
        post.ready(time, time);
        post.call(time, Event::Limit(limit));
        assert!(post.outcome.unwrap().restarted, "{limit}");
        assert_eq!(post.state.overrun, Some(time), "{limit}");
    }
    // 100 is the least driven duty: nothing restarts it any more.
    assert_eq!(post.ready(time + 4_999, time + 4_999).faults, NO_FAULT);
    let reply = post.call(time + 5_000, Event::Limit(6_000));
    assert_eq!((reply.faults, reply.closed), (OVER_CURRENT, false));
}

#[test]
fn raised_duty_leaves_it_running() {
    // 16,020 is the least current for 267.
    for limit in [16_020, 32_000, 80_000] {
        let next = no_restart(&over_running_at_266(5_001), 10_000, Event::Limit(limit));
        assert!(next.wave > 266 && next.closed);
        assert_eq!(next.overrun, Some(5_001));
        let next = no_restart(&next, 10_001, Event::Tick);
        assert_eq!((next.faults, next.closed), (OVER_CURRENT, false));
    }
    let next = no_restart(&over_running_at_266(5_000), 10_000, RAISE);
    assert_eq!(next.faults, OVER_CURRENT);
}

#[test]
fn lowered_then_raised_counts_from_the_lowering() {
    let state = restarts(&over_running(8_000), 10_010, LOWER);
    let state = no_restart(&state, 10_020, RAISE);
    assert_eq!((state.wave, state.overrun), (533, Some(10_010)));
}

#[test]
fn raised_then_lowered_restarts() {
    // Down to 400 only, which is above the duty that the over-run started at.
    let state = no_restart(&over_running_at_266(8_000), 10_010, RAISE);
    let state = restarts(&state, 10_020, Event::Limit(24_000));
    assert_eq!((state.wave, state.overrun), (400, Some(10_020)));
}

#[test]
fn repeated_limit_restarts_once() {
    let mut state = restarts(&over_running(8_000), 10_010, LOWER);
    for time in [10_010, 10_020, 10_030] {
        state = no_restart(&state, time, LOWER);
        assert_eq!(state.overrun, Some(10_010));
    }
}

#[test]
fn measure_after_the_restart_is_judged_by_the_new_duty() {
    let state = restarts(&over_running(8_000), 10_010, LOWER);
    for current in [TOO_MUCH_266, ALLOWED, TOO_MUCH, LARGEST] {
        let next = no_restart(&state, 10_020, Event::measure_one(current));
        assert_eq!(next.overrun, Some(10_010), "{current}");
    }
    let next = no_restart(&state, 10_020, Event::measure_one(ALLOWED_266));
    assert_eq!(next.overrun, None);
    let next = no_restart(&next, 10_030, Event::measure_one(TOO_MUCH_266));
    assert_eq!(next.overrun, Some(10_030));
}

// ---- Steady waves ----

#[test]
fn steady_high_ends_it() {
    for limit in [0, 5_999] {
        let next = no_restart(&over_running(8_000), 10_010, Event::Limit(limit));
        assert_eq!((next.wave, next.overrun), (1_000, None));
        // A lower duty than 533 afterwards finds none to restart.
        let next = no_restart(&next, 10_020, LOWER);
        assert_eq!((next.wave, next.overrun), (266, None));
    }
    let next = restarts(&over_running(8_000), 10_010, Event::Limit(6_000));
    assert_eq!(next.wave, 100);
}

#[test]
fn steady_low_ends_it() {
    let bad = window(6_000, 0);
    let with_partner = State {
        previous: Some(verdict(6_000, 0, driven(false, 533), false)),
        ..too_high(8_000)
    };
    let mut calls = vec![(with_partner, Event::Sample(&bad))];
    for kind in [3, 4, 5] {
        calls.push((too_high(8_000), Event::Fault(kind)));
    }
    for fault in 0..5 {
        let mut state = over_running(8_000);
        state.faults[fault] = true;
        calls.push((state, LOWER));
    }
    for (state, event) in calls {
        let next = no_restart(&state, 10_010, event);
        assert_eq!((next.wave, next.overrun), (0, None), "{event:?}");
    }
}

#[test]
fn steady_wave_to_a_driven_one_leaves_it() {
    // Only an altered controller has an over-run under a steady wave.
    for wave in [0, 1_000] {
        for limit in [6_000, 16_000, 32_000] {
            let state = State {
                wave,
                ..over_running(8_000)
            };
            let next = no_restart(&state, 10_010, Event::Limit(limit));
            assert!(driven(false, next.wave));
            assert_eq!(next.overrun, Some(8_000), "{wave}, {limit}");
        }
    }
}

#[test]
fn steady_wave_to_a_steady_one_ends_it() {
    for wave in [0, 1_000] {
        for event in [Event::Limit(0), Event::Fault(3)] {
            let state = State {
                wave,
                ..over_running(8_000)
            };
            assert_eq!(no_restart(&state, 10_010, event).overrun, None);
        }
    }
}

#[test]
fn settled_state_says_whether_the_wave_is_driven() {
    for (settled, ventilation, is_driven) in [
        (None, true, false),
        (Some(Band::A), true, false),
        (Some(Band::B), false, true),
        (Some(Band::C), false, true),
        (Some(Band::D), false, false),
        (Some(Band::D), true, true),
        (Some(Band::E), true, false),
    ] {
        let state = State {
            settled,
            ventilation,
            ..over_running(8_000)
        };
        let (next, outcome) = state.call(10_010, &LOWER);
        assert_eq!(driven(false, next.wave), is_driven, "{settled:?}");
        assert_eq!(outcome.restarted, is_driven, "{settled:?}");
        assert_eq!(next.overrun, is_driven.then_some(10_010), "{settled:?}");
    }
}

// ---- Calls of every kind, where the lent wave is too high ----

#[test]
fn call_of_any_kind_restarts() {
    let windows = [(6_000, -12_000), (7_200, -12_000), (6_000, 0)];
    let [ready, no_band, diode_bad] = windows.map(|(high, low)| window(high, low));
    for event in [
        Event::Tick,
        Event::Clear,
        Event::Sample(&ready),
        Event::Sample(&no_band),
        Event::Sample(&diode_bad),
        Event::measure_one(TOO_MUCH),
        Event::Measure([0, 0, LARGEST]),
        LOWER,
        Event::Limit(31_979),
    ] {
        let next = restarts(&too_high(8_000), 10_010, event);
        // The duty is not lowered a second time.
        let next = no_restart(&next, 10_020, Event::Tick);
        assert_eq!(next.overrun, Some(10_010), "{event:?}");
    }
}

#[test]
fn limit_that_keeps_the_lent_wave_leaves_it() {
    let next = no_restart(&too_high(8_000), 10_010, RAISE);
    assert_eq!((next.wave, next.overrun), (533, Some(8_000)));
}

#[test]
fn rated_below_the_lent_wave_restarts() {
    let state = State {
        rated: 16_000,
        ..over_running(8_000)
    };
    assert_eq!(restarts(&state, 10_010, Event::Tick).wave, 266);
    assert_eq!(restarts(&state, 10_010, Event::Limit(80_000)).wave, 266);
}

#[test]
fn sample_settles_before_the_wave() {
    let unsettled = State {
        settled: None,
        ..too_high(8_000)
    };
    restarts(&unsettled, 10_010, Event::Sample(&window(6_000, -12_000)));
    let next = no_restart(&unsettled, 10_010, Event::Sample(&window(9_000, -12_000)));
    assert_eq!((next.wave, next.overrun), (1_000, None));
    let leaving = State {
        previous: Some(verdict(12_000, -12_000, driven(false, 533), false)),
        ..too_high(8_000)
    };
    let next = no_restart(&leaving, 10_010, Event::Sample(&window(12_000, -12_000)));
    assert_eq!((next.wave, next.overrun), (1_000, None));
}

#[test]
fn clear_restarts_from_a_driven_duty_alone() {
    let faulty = State {
        faults: [true; 5],
        ..too_high(8_000)
    };
    assert_eq!(restarts(&faulty, 10_010, Event::Clear).faults, NO_FAULT);
    let steady = State { wave: 0, ..faulty };
    let next = no_restart(&steady, 10_010, Event::Clear);
    assert_eq!((next.wave, next.overrun), (266, Some(8_000)));
    let old = State {
        overrun: Some(5_010),
        ..faulty
    };
    let next = no_restart(&old, 10_010, Event::Clear);
    assert_eq!((next.faults, next.overrun), (OVER_CURRENT, None));
}

#[test]
fn measure_is_judged_before_the_wave_is_lowered() {
    // Allowed at 533, and too much at 266.
    for start in [8_000, 5_011, 5_010, 0] {
        let next = no_restart(&too_high(start), 10_010, Event::measure_one(ALLOWED));
        assert_eq!((next.wave, next.overrun), (266, None), "{start}");
        assert_eq!(next.faults, NO_FAULT, "{start}");
    }
    restarts(&too_high(5_011), 10_010, Event::measure_one(TOO_MUCH));
    let next = no_restart(&too_high(5_010), 10_010, Event::measure_one(TOO_MUCH));
    assert_eq!((next.faults, next.overrun), (OVER_CURRENT, None));
}

#[test]
fn over_run_of_the_same_measure_counts_as_restarted() {
    let state = State {
        overrun: None,
        ..too_high(0)
    };
    restarts(&state, 10_010, Event::measure_one(TOO_MUCH));
    let next = no_restart(&state, 10_010, Event::measure_one(ALLOWED));
    assert_eq!((next.wave, next.overrun), (266, None));
}

// ---- Contactor and stop ----

#[test]
fn restarts_with_the_contactor_open() {
    let open = State {
        closed: false,
        ..too_high(8_000)
    };
    // A measure neither ends nor starts one then.
    for event in [
        Event::Tick,
        Event::Clear,
        Event::measure_one(0),
        Event::measure_one(LARGEST),
        LOWER,
    ] {
        assert!(!restarts(&open, 10_010, event).closed);
        let none = State {
            overrun: None,
            ..open
        };
        assert_eq!(no_restart(&none, 10_010, event).overrun, None);
    }
}

#[test]
fn open_contactor_changes_neither_edge_nor_raising() {
    let mut open = State {
        closed: false,
        rated: 80_000,
        ..over_running(5_001)
    };
    restarts(&open, 10_000, LOWER);
    let next = no_restart(&open, 10_000, Event::Limit(80_000));
    assert_eq!((next.wave, next.overrun), (960, Some(5_001)));
    open.overrun = Some(5_000);
    assert_eq!(no_restart(&open, 10_000, LOWER).faults, OVER_CURRENT);
}

#[test]
fn call_that_closes_restarts() {
    let open = State {
        closed: false,
        ..too_high(8_000)
    };
    let next = restarts(&open, 10_010, Event::Sample(&window(6_000, -12_000)));
    assert_eq!((next.closed, next.closings), (true, 2));
}

#[test]
fn call_that_opens_restarts_it_and_then_ends_it() {
    assert!(restarts(&over_running(8_000), 10_080, LOWER).closed);
    let unsound = window(9_000, -12_000);
    let with_partner = State {
        previous: Some(verdict(9_000, -12_000, driven(false, 533), false)),
        ..too_high(8_000)
    };
    for (state, time, event) in [
        (over_running(8_000), 10_081, LOWER),
        (with_partner, 10_010, Event::Sample(&unsound)),
    ] {
        let (next, outcome) = state.call(time, &event);
        assert!(outcome.restarted && outcome.opened && !next.closed);
        assert_eq!((next.wave, next.overrun), (266, None));
        assert_eq!(next.faults, NO_FAULT);
    }
}

#[test]
fn lowered_duty_still_ends_a_stop() {
    for start in [0, 7_010, 9_000] {
        let state = State {
            stop: Some(start),
            ..over_running(8_000)
        };
        let next = restarts(&state, 10_010, LOWER);
        assert_eq!((next.stop, next.closed), (None, true));
    }
}

// ---- Refused calls ----

#[test]
fn refused_call_restarts_nothing() {
    let state = too_high(8_000);
    let spread = unsupported();
    for (time, event, refusal) in [
        (9_999, LOWER, 2),
        (MAX_TIME + 1, LOWER, 3),
        (10_010, Event::Sample(&[0; 255]), 4),
        (10_010, Event::Sample(&[15_001; 256]), 5),
        (10_010, Event::Sample(&spread), 6),
        (10_010, Event::Limit(80_001), 13),
        (10_010, Event::measure_one(LARGEST + 1), 7),
        (10_010, Event::Fault(2), 8),
    ] {
        let (same, outcome) = state.call(time, &event);
        assert_eq!((outcome.reply.refusal, outcome.restarted), (refusal, false));
        assert_eq!(same, state);
    }
    // 961 is no driven duty.
    let state = State { wave: 961, ..state };
    let (same, outcome) = state.call(10_010, &LOWER);
    assert_eq!((outcome.reply.refusal, outcome.restarted), (1, false));
    assert_eq!(same, state);
    assert!(!Outcome::without_steps(Reply::alone(1)).restarted);
}

// ---- Lists ----

/// The bench list with a van over at 1,000, lowered at this time after its C sample.
fn lowered_at(time: u64) -> Post {
    let mut post = Post::closed();
    post.ready(1_000, 1_000);
    post.call(1_000, Event::measure_one(TOO_MUCH));
    post.ready(time, time);
    post.call(time, LOWER);
    post
}

#[test]
fn list_counts_fault_2_from_the_lowering() {
    let mut post = lowered_at(5_999);
    assert!(post.outcome.unwrap().restarted);
    assert_eq!(post.ready(6_000, 10_990).faults, NO_FAULT);
    let reply = post.call(10_998, Event::measure_one(TOO_MUCH));
    assert_eq!((reply.faults, reply.closed), (NO_FAULT, true));
    let reply = post.call(10_999, Event::Tick);
    assert_eq!((reply.faults, reply.closed), (OVER_CURRENT, false));
}

#[test]
fn list_with_a_van_that_does_not_follow() {
    let mut post = lowered_at(5_000);
    for (time, current) in [(7_000, 30_000), (9_000, 20_000), (9_999, TOO_MUCH_266)] {
        post.ready(time, time);
        post.call(time, Event::measure_one(current));
        assert_eq!(post.state.overrun, Some(5_000));
    }
    post.ready(10_000, 10_000);
    assert_eq!(post.state.faults, OVER_CURRENT);
}

#[test]
fn list_with_a_van_that_follows_in_time() {
    let mut post = lowered_at(5_000);
    post.ready(9_999, 9_999);
    post.call(9_999, Event::measure_one(ALLOWED_266));
    let reply = post.ready(10_000, 20_000);
    assert_eq!((reply.faults, reply.closed), (NO_FAULT, true));
}

#[test]
fn list_with_a_lowering_that_comes_too_late() {
    let mut post = Post::closed();
    post.call(50, Event::measure_one(TOO_MUCH));
    post.ready(5_049, 5_049);
    assert_eq!(post.state.overrun, Some(50));
    let reply = post.call(5_050, LOWER);
    assert_eq!((reply.faults, reply.wave), (OVER_CURRENT, 0));
    assert!(!post.outcome.unwrap().restarted);
}

/// A list of calls, and the over-run as its calls and replies tell it.
#[derive(Clone, Copy)]
struct Told {
    state: State,
    overrun: Option<u64>,
    restarts: u32,
    faults: u32,
}

impl Told {
    /// One call. Every window is that of a van in C.
    fn call(&mut self, time: u64, event: Event) {
        self.measure(time, event);
        let before = self.state.wave;
        let van = |_: &[i32]| Ok((6_000, -12_000));
        let (state, outcome) = self.state.call_evaluated(van, time, &event);
        let old = self.overrun.is_some_and(|start| time - start >= 5_000);
        assert_eq!(outcome.latched[1], old, "{event:?} at {time}");
        let lowered = driven(false, before) && driven(false, state.wave) && state.wave < before;
        assert_eq!(outcome.restarted, lowered && self.overrun.is_some());
        assert!(!outcome.restarted || matches!(event, Event::Limit(_)));
        if outcome.opened || !driven(false, state.wave) {
            self.overrun = None;
        } else if lowered {
            self.overrun = self.overrun.and(Some(time));
        }
        self.state = state;
        self.restarts += u32::from(outcome.restarted);
        self.faults += u32::from(outcome.latched[1]);
    }

    /// Step 1 of a measure.
    fn measure(&mut self, time: u64, event: Event) {
        if let (Event::Measure([a, b, c]), true) = (event, self.state.closed) {
            if driven(false, self.state.wave) {
                let over = 10 * a.max(b).max(c) > 11 * announced(self.state.wave);
                self.overrun = over.then_some(self.overrun.unwrap_or(time));
            }
        }
    }
}

#[test]
fn every_short_list_judges_fault_2_by_this_over_run() {
    let events = [
        Event::Tick,
        Event::Clear,
        LOWER,
        RAISE,
        Event::Limit(0),
        Event::measure_one(20_000), // over at 266, not at 533
        Event::measure_one(LARGEST),
    ];
    let closed = Told {
        state: Post::closed().state,
        overrun: None,
        restarts: 0,
        faults: 0,
    };
    let (mut restarts, mut faults) = (0, 0);
    for list in 0..14_usize.pow(4) {
        let mut told = closed;
        told.call(50, Event::measure_one(LARGEST));
        let (mut time, mut rest) = (50, list);
        for _ in 0..4 {
            time += [2_499, 2_500][rest / 7 % 2];
            told.call(time, Event::Sample(&[]));
            told.call(time, events[rest % 7]);
            rest /= 14;
        }
        restarts += told.restarts;
        faults += told.faults;
    }
    assert!(restarts > 1_000 && faults > 1_000, "{restarts} {faults}");
}
