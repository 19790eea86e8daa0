//! Request b of document 02: a measure of three lines.
//!
//! The wave is 533 unless a test changes it. It reads 31,980 mA, so a line may
//! carry up to 35,178.

mod common;

use chuldariin_model::*;
use common::{charging, window, ALLOWED, LARGEST, NO_FAULT, OVER_CURRENT, TOO_MUCH};

/// Three currents in each of their orders.
fn orders([a, b, c]: [u32; 3]) -> [[u32; 3]; 6] {
    [
        [a, b, c],
        [a, c, b],
        [b, a, c],
        [b, c, a],
        [c, a, b],
        [c, b, a],
    ]
}

/// The charging controller with these lines kept.
fn charging_with(lines: [u32; 3]) -> State {
    State {
        lines,
        ..charging()
    }
}

/// The controller after a measure, which must be accepted, kept and shown.
fn measured(state: &State, time: u64, lines: [u32; 3]) -> State {
    let (next, outcome) = state.call(time, &Event::Measure(lines));
    assert_eq!(outcome.reply.refusal, 0, "{lines:?}");
    assert_eq!((outcome.reply.lines, next.lines), (lines, lines));
    next
}

/// The controller after any other call, which must leave and show the lines.
fn left(state: &State, time: u64, event: Event) -> State {
    let (next, outcome) = state.call(time, &event);
    assert_eq!(outcome.reply.refusal, 0, "{event:?}");
    let shown = outcome.reply.lines;
    assert_eq!((shown, next.lines), (state.lines, state.lines), "{event:?}");
    next
}

/// A call that must be refused, with nothing changed and the lines as lent.
fn refused(state: &State, time: u64, event: Event, refusal: u8) {
    let (same, outcome) = state.call(time, &event);
    assert_eq!(outcome.reply.refusal, refusal, "{event:?}");
    assert_eq!((outcome.reply.lines, same), (state.lines, *state));
}

// ---- Over-run ----

#[test]
fn largest_line_starts_an_over_run() {
    let state = charging();
    for others in [[0, 0], [20_000, 0], [31_980, 16_000], [ALLOWED, ALLOWED]] {
        for lines in orders([ALLOWED, others[0], others[1]]) {
            assert_eq!(measured(&state, 10_000, lines).overrun, None, "{lines:?}");
        }
        for lines in orders([TOO_MUCH, others[0], others[1]]) {
            let next = measured(&state, 10_000, lines);
            assert_eq!(next.overrun, Some(10_000), "{lines:?}");
        }
    }
}

#[test]
fn sum_of_the_lines_starts_none() {
    for lines in [[11_727, 11_726, 11_726], [31_980; 3], [ALLOWED; 3]] {
        assert!(lines.iter().sum::<u32>() > ALLOWED);
        assert_eq!(measured(&charging(), 10_000, lines).overrun, None);
    }
}

#[test]
fn over_run_goes_on_from_line_to_line() {
    let state = measured(&charging(), 10_000, [TOO_MUCH, 0, 0]);
    let state = measured(&state, 10_020, [ALLOWED, TOO_MUCH, 0]);
    let state = measured(&state, 10_040, [0, 0, LARGEST]);
    assert_eq!(state.overrun, Some(10_000));
    let state = measured(&state, 10_060, [ALLOWED; 3]);
    assert_eq!(state.overrun, None);
    let state = measured(&state, 10_080, [0, TOO_MUCH, 0]);
    assert_eq!((state.overrun, state.closed), (Some(10_080), true));
}

#[test]
fn fault_2_on_any_line() {
    for lines in orders([TOO_MUCH, 20_000, 0]) {
        for (start, faults) in [(5_000, OVER_CURRENT), (5_001, NO_FAULT)] {
            let mut state = charging();
            state.overrun = Some(start);
            let next = measured(&state, 10_000, lines);
            assert_eq!((next.faults, next.closed), (faults, faults == NO_FAULT));
        }
    }
    let mut state = charging();
    state.overrun = Some(5_000);
    let next = measured(&state, 10_000, [ALLOWED; 3]);
    assert_eq!((next.faults, next.overrun), (NO_FAULT, None));
}

#[test]
fn kept_lines_are_not_judged_again() {
    // 266 reads 15,960, which allows 17,556.
    let state = measured(&charging(), 10_000, [0, 17_557, 0]);
    let state = left(&state, 10_010, Event::Limit(16_000));
    let state = left(&state, 10_020, Event::Tick);
    assert_eq!((state.wave, state.overrun), (266, None));
    assert_eq!(measured(&state, 10_030, [0, 17_556, 0]).overrun, None);
    let state = measured(&state, 10_030, [0, 17_557, 0]);
    assert_eq!(state.overrun, Some(10_030));
    // The bound rises above them: the over-run runs until the next measure.
    let state = left(&state, 10_040, Event::Limit(32_000));
    assert_eq!((state.wave, state.overrun), (533, Some(10_030)));
    let state = measured(&state, 10_050, [0, 17_557, 0]);
    assert_eq!(state.overrun, None);
}

// ---- The old measure ----

#[test]
fn old_measure_is_line_1() {
    for current in [0, 1, ALLOWED, TOO_MUCH, LARGEST, LARGEST + 1, u32::MAX] {
        assert_eq!(Event::measure_one(current), Event::Measure([current, 0, 0]));
    }
    let state = charging_with([1_000, 2_000, 3_000]);
    for (current, overrun) in [(0, None), (ALLOWED, None), (TOO_MUCH, Some(10_000))] {
        let (next, outcome) = state.call(10_000, &Event::measure_one(current));
        assert_eq!(outcome.reply.lines, [current, 0, 0]);
        assert_eq!((next.lines, next.overrun), ([current, 0, 0], overrun));
    }
    refused(&state, 10_000, Event::measure_one(LARGEST + 1), 7);
}

#[test]
fn old_measure_ends_an_over_run_of_another_line() {
    let state = measured(&charging(), 10_000, [0, 0, TOO_MUCH]);
    let (next, _) = state.call(10_010, &Event::measure_one(ALLOWED));
    assert_eq!((next.lines, next.overrun), ([ALLOWED, 0, 0], None));
}

// ---- Refusal 7 ----

#[test]
fn any_line_above_the_largest_is_refused_7() {
    let mut open = charging_with([1_000, 2_000, 3_000]);
    open.closed = false;
    for state in [charging_with([1_000, 2_000, 3_000]), open] {
        for others in [[0, 0], [20_000, 10_000], [LARGEST, LARGEST]] {
            for lines in orders([LARGEST, others[0], others[1]]) {
                measured(&state, 10_010, lines);
            }
            for above in [LARGEST + 1, u32::MAX] {
                for lines in orders([above, others[0], others[1]]) {
                    refused(&state, 10_010, Event::Measure(lines), 7);
                }
            }
        }
        refused(&state, 10_010, Event::Measure([LARGEST + 1; 3]), 7);
    }
}

#[test]
fn refused_measure_ends_no_over_run() {
    let state = measured(&charging(), 10_000, [0, TOO_MUCH, 0]);
    refused(&state, 10_010, Event::Measure([0, 0, LARGEST + 1]), 7);
    assert_eq!(state.overrun, Some(10_000));
}

// ---- The reply ----

#[test]
fn lines_are_0_at_the_start() {
    let first = Begin {
        time: 0,
        rated: 32_000,
        pause: 0,
        ventilation: false,
        digital: false,
    };
    let (state, reply) = begin(&first).unwrap();
    assert_eq!((state.lines, reply.lines), ([0; 3], [0; 3]));
    let state = left(&state, 0, Event::Limit(32_000));
    refused(&state, 0, Event::Measure([1, 2, LARGEST + 1]), 7);
    let state = left(&state, 0, Event::Tick);
    assert_eq!(measured(&state, 0, [1, 2, 3]).lines, [1, 2, 3]);
    assert_eq!(Reply::alone(1).lines, [0; 3]);
}

#[test]
fn other_calls_leave_and_show_the_lines() {
    let state = charging_with([1_000, 2_000, 3_000]);
    for (high, low) in [(6_000, -12_000), (9_000, -12_000), (6_000, 0)] {
        left(&state, 10_010, Event::Sample(&window(high, low)));
    }
    for limit in [0, 16_000, 80_000] {
        left(&state, 10_010, Event::Limit(limit));
    }
    for kind in [3, 4, 5] {
        left(&state, 10_010, Event::Fault(kind));
    }
    left(&state, 10_010, Event::Clear);
    left(&state, 10_010, Event::Tick);
}

#[test]
fn refusals_show_the_lines_as_lent() {
    let state = charging_with([1_000, 2_000, 3_000]);
    let new = Event::Measure([4_000, 5_000, 6_000]);
    refused(&State { wave: 1, ..state }, 10_000, new, 1);
    refused(&state, 9_999, new, 2);
    refused(&state, 1_000_000_000_001, new, 3);
    refused(&state, 10_000, Event::Sample(&[0; 255]), 4);
    refused(&state, 10_000, Event::Sample(&[15_001; 256]), 5);
    let spread: Vec<i32> = (0..256).map(|n| 100 * n - 12_800).collect();
    refused(&state, 10_000, Event::Sample(&spread), 6);
    refused(&state, 10_000, Event::Limit(80_001), 13);
    refused(&state, 10_000, Event::Fault(2), 8);
}

// ---- What is kept ----

#[test]
fn kept_with_the_contactor_open_or_a_steady_wave() {
    let open = State {
        closed: false,
        ..charging()
    };
    let stopping = left(&charging(), 10_000, Event::Limit(0));
    assert_eq!((stopping.closed, stopping.wave), (true, 1_000));
    let faulty = left(&charging(), 10_000, Event::Fault(3));
    assert_eq!((faulty.closed, faulty.wave), (false, 0));
    for state in [open, stopping, faulty] {
        for lines in [[1, 2, 3], [TOO_MUCH; 3], [LARGEST; 3]] {
            let next = measured(&state, 10_010, lines);
            assert_eq!((next.overrun, next.closed), (None, state.closed));
        }
    }
}

#[test]
fn kept_after_an_opening_and_a_clear() {
    let state = measured(&charging(), 10_000, [1_000, TOO_MUCH, 3_000]);
    let state = left(&state, 10_010, Event::Fault(5));
    assert_eq!((state.closed, state.overrun), (false, None));
    let state = left(&state, 10_020, Event::Clear);
    assert_eq!(state.faults, NO_FAULT);
    assert_eq!(left(&state, 10_030, Event::Tick).lines[1], TOO_MUCH);
}

#[test]
fn kept_in_the_call_that_opens() {
    let (next, outcome) = charging().call(10_081, &Event::Measure([1, TOO_MUCH, 3]));
    assert!(outcome.opened && !next.closed && next.overrun.is_none());
    assert_eq!(
        (next.lines, outcome.reply.lines),
        ([1, TOO_MUCH, 3], next.lines)
    );
}

#[test]
fn kept_lines_start_no_over_run_at_a_closing() {
    let mut state = charging();
    state.closed = false;
    let state = measured(&state, 10_000, [LARGEST; 3]);
    let state = left(&state, 10_010, Event::Sample(&window(6_000, -12_000)));
    assert_eq!((state.closed, state.overrun), (true, None));
}

// ---- Altered controllers ----

#[test]
fn lent_lines_above_the_largest_are_taken() {
    for lines in orders([LARGEST + 1, u32::MAX, 0]) {
        let state = charging_with(lines);
        let ready = window(6_000, -12_000);
        for event in [
            Event::Tick,
            Event::Clear,
            Event::Fault(4),
            Event::Limit(16_000),
            Event::Sample(&ready),
        ] {
            let next = left(&state, 10_010, event);
            assert_eq!((next.overrun, next.faults[1]), (None, false));
        }
        refused(&state, 10_010, Event::Measure(lines), 7);
        assert_eq!(measured(&state, 10_010, [ALLOWED; 3]).overrun, None);
    }
}
