//! Request e of document 02, a digital post: refusals, and altered controllers.

mod common;

use chuldariin_model::*;
use common::linked::{begun, digital, told};
use common::{charging, window, Post, LARGEST, MAX_TIME, NO_FAULT, OVER_CURRENT};

// ---- Refusals ----

/// A call that must be refused, with nothing changed and the reply as lent.
fn refused(state: &State, time: u64, event: Event, refusal: u8) {
    let (same, outcome) = state.call(time, &event);
    assert_eq!(outcome.reply, Reply::of(state, refusal), "{event:?}");
    assert_eq!(refusal_of_call(state, time, &event), refusal);
    assert_eq!((same, outcome.grant_reset), (*state, false));
    assert_eq!(outcome.conditions, Conditions::default());
}

#[test]
fn link_call_to_a_plain_post_is_refused_12() {
    for granted in [0, 6_000, 80_000, 80_001, u32::MAX] {
        for closed in [true, false] {
            let state = State {
                closed,
                ..charging()
            };
            refused(&state, 10_000, Event::Link(granted), 12);
            refused(
                &State { wave: 50, ..state },
                10_000,
                Event::Link(granted),
                1,
            );
            refused(&state, 9_999, Event::Link(granted), 2);
            refused(&state, MAX_TIME + 1, Event::Link(granted), 3);
        }
    }
}

#[test]
fn grant_above_80000_is_refused_11() {
    let state = digital(16_000);
    assert_eq!(state.call(10_000, &Event::Link(80_000)).0.grant, 80_000);
    let leaving = State {
        settled: Some(Band::A),
        ..state
    };
    for granted in [80_001, u32::MAX] {
        refused(&state, 10_000, Event::Link(granted), 11);
        refused(&leaving, 10_000, Event::Link(granted), 11);
        let altered = State { wave: 533, ..state };
        refused(&altered, 10_000, Event::Link(granted), 1);
        refused(&state, 9_999, Event::Link(granted), 2);
        refused(&state, MAX_TIME + 1, Event::Link(granted), 3);
    }
}

#[test]
fn refused_link_call_moves_no_clock() {
    let mut post = begun(false);
    assert_eq!(post.call(100, Event::Link(80_001)).refusal, 11);
    assert_eq!(post.call(50, Event::Link(80_000)).refusal, 0);
    assert_eq!(post.call(49, Event::Link(0)).refusal, 2);
    assert_eq!(post.call(MAX_TIME + 1, Event::Link(0)).refusal, 3);
    assert_eq!(post.call(MAX_TIME, Event::Link(6_000)).refusal, 0);
    let mut plain = Post::begin(0);
    assert_eq!(plain.call(100, Event::Link(6_000)).refusal, 12);
    assert_eq!(plain.call(50, Event::Tick).refusal, 0);
}

#[test]
fn wave_range_of_either_post() {
    let state = digital(16_000);
    for wave in [0, 50, 1_000] {
        let lent = State { wave, ..state };
        assert_eq!(refusal_of_call(&lent, 10_000, &Event::Tick), 0, "{wave}");
    }
    for wave in [1, 49, 51, 99, 961, 999, 1_001, u32::MAX] {
        let lent = State { wave, ..state };
        refused(&lent, 10_000, Event::Tick, 1);
        assert_eq!((lent.digit(), lent.allowed()), (1, None), "{wave}");
    }
    // Driven, and still no wave of a digital post; 50 is not driven in a plain one.
    for wave in [100, 533, 960] {
        let lent = State { wave, ..state };
        refused(&lent, 10_000, Event::Tick, 1);
        assert_eq!((lent.digit(), lent.allowed()), (2, Some(16_000)), "{wave}");
    }
    let plain = State {
        wave: 50,
        ..charging()
    };
    refused(&plain, 10_000, Event::Tick, 1);
    assert_eq!((plain.digit(), plain.allowed()), (1, None));
}

#[test]
fn lent_grant_above_80000_is_refused_1() {
    for state in [digital(0), charging()] {
        let lent = State {
            grant: 80_000,
            ..state
        };
        assert_eq!(refusal_of_call(&lent, 10_000, &Event::Tick), 0);
        for grant in [80_001, u32::MAX] {
            let lent = State { grant, ..state };
            refused(&lent, 10_000, Event::Tick, 1);
            refused(&lent, 10_000, Event::Link(0), 1);
            refused(&lent, 10_000, Event::Link(80_001), 1);
            refused(&lent, 10_000, Event::Sample(&[]), 1);
            refused(&lent, 9_999, Event::Tick, 2);
        }
    }
}

// ---- Altered controllers ----

#[test]
fn lent_closed_with_50_and_no_grant() {
    let (next, outcome) = digital(5_999).call(10_000, &Event::Tick);
    assert_eq!(told(outcome.reply), (b'C', 1, 1_000, "closed"));
    assert_eq!(next.stop, Some(10_000));
    // A measure is judged against 0, before the wave ends the over-run.
    assert_eq!(digital(0).allowed(), Some(0));
    for (current, faults) in [(0, NO_FAULT), (1, OVER_CURRENT)] {
        let state = State {
            overrun: Some(5_000),
            ..digital(0)
        };
        let (next, _) = state.call(10_000, &Event::measure_one(current));
        assert_eq!((next.faults, next.overrun), (faults, None));
    }
}

/// A lent controller with A settled and a grant of 20,000.
fn lent_a(overrun: Option<u64>) -> State {
    State {
        settled: Some(Band::A),
        overrun,
        ..digital(20_000)
    }
}

#[test]
fn measure_of_a_lent_a_is_judged_before_the_grant_is_0() {
    let state = lent_a(Some(5_000));
    for (current, faults) in [(22_000, NO_FAULT), (22_001, OVER_CURRENT)] {
        let (next, outcome) = state.call(10_000, &Event::measure_one(current));
        assert_eq!((next.faults, next.grant), (faults, 0));
        assert!(outcome.grant_reset);
    }
}

#[test]
fn lent_a_with_a_grant_and_an_old_over_run() {
    let state = lent_a(Some(5_000));
    for (event, reset) in [
        (Event::Tick, true),
        (Event::Clear, true),
        (Event::Limit(0), true),
        (Event::Fault(3), true),
        (Event::Link(7_000), true),
        (Event::Link(0), false),
    ] {
        let (next, outcome) = state.call(10_000, &event);
        assert_eq!((next.grant, outcome.grant_reset), (0, reset), "{event:?}");
        assert!(outcome.latched[1]);
    }
}

#[test]
fn lent_a_with_a_grant_and_no_over_run() {
    let state = lent_a(None);
    let (stays, faulty) = ((b'A', 1, 1_000, "closed"), (b'F', 0, 0, "open"));
    for (event, reset, reply) in [
        (Event::Tick, true, stays),
        (Event::Clear, true, stays),
        (Event::Limit(0), true, stays),
        (Event::Limit(32_000), true, stays),
        (Event::Measure([LARGEST; 3]), true, stays),
        (Event::Fault(3), true, faulty),
        (Event::Link(7_000), true, stays),
        (Event::Link(0), false, stays),
    ] {
        let (next, outcome) = state.call(10_000, &event);
        assert_eq!((next.grant, outcome.grant_reset), (0, reset), "{event:?}");
        assert_eq!(told(outcome.reply), reply, "{event:?}");
        assert!(!outcome.latched[1] && next.overrun.is_none());
    }
}

#[test]
fn samples_of_a_lent_a_with_a_grant() {
    let sample = |high| Some(verdict(high, -12_000, true, false));
    for (previous, settled, left) in [
        (sample(9_000), Band::B, 20_000),
        (sample(6_000), Band::A, 0),
        (sample(12_000), Band::A, 0),
        (None, Band::A, 0),
    ] {
        let state = State {
            closed: false,
            previous,
            ..lent_a(None)
        };
        let (next, outcome) = state.call(10_000, &Event::Sample(&window(9_000, -12_000)));
        assert_eq!((next.settled, next.grant), (Some(settled), left));
        assert_eq!(outcome.grant_reset, left == 0);
        assert_eq!(next.wave, if left == 0 { 1_000 } else { 50 });
    }
}

#[test]
fn steady_wave_to_50_leaves_an_over_run() {
    for wave in [0, 50, 1_000] {
        let state = State {
            wave,
            overrun: Some(8_000),
            ..digital(0)
        };
        let (next, outcome) = state.call(10_000, &Event::Link(6_000));
        assert_eq!((next.wave, next.overrun), (50, Some(8_000)), "{wave}");
        assert!(!outcome.restarted);
    }
}

#[test]
fn plain_post_asks_nothing_of_a_lent_grant() {
    let ready = window(6_000, -12_000);
    for grant in [0, 5_999, 6_000, 80_000] {
        let state = State {
            grant,
            ..charging()
        };
        assert_eq!(state.allowed(), Some(31_980));
        let (next, outcome) = state.call(10_000, &Event::Tick);
        assert_eq!(told(outcome.reply), (b'C', 2, 533, "closed"));
        assert_eq!((next.grant, outcome.conditions.granted), (grant, true));
        let open = State {
            closed: false,
            ..state
        };
        let (next, outcome) = open.call(10_000, &Event::Sample(&ready));
        assert_eq!(told(outcome.reply), (b'C', 2, 533, "closed"));
        assert_eq!(next.grant, grant);
    }
}

#[test]
fn settled_a_empties_a_lent_grant_of_a_plain_post() {
    let state = State {
        settled: Some(Band::A),
        closed: false,
        grant: 9_000,
        ..charging()
    };
    let (next, outcome) = state.call(10_000, &Event::Tick);
    assert_eq!((next.grant, outcome.grant_reset), (0, true));
}
