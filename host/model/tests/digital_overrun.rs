//! Request e of document 02, a digital post: its over-run.

mod common;

use chuldariin_model::*;
use common::linked::{closed, digital, grant, link, measured, told};
use common::{LARGEST, NO_FAULT, OVER_CURRENT};

#[test]
fn over_run_is_judged_against_the_least_of_three() {
    for (granted, rated, limit, allowed, fine) in [
        (16_000, 16_000, 16_000, 16_000, 17_600),
        (10_000, 32_000, 32_000, 10_000, 11_000),
        (80_000, 32_000, 80_000, 32_000, 35_200),
        (80_000, 80_000, 20_000, 20_000, 22_000),
        (80_000, 80_000, 80_000, 80_000, 88_000),
        (6_001, 80_000, 80_000, 6_001, 6_601),
        (80_000, 80_000, 6_009, 6_009, 6_609),
    ] {
        let state = State {
            rated,
            limit,
            ..digital(granted)
        };
        assert_eq!(state.allowed(), Some(allowed));
        for line in 0..3 {
            let mut lines = [fine; 3];
            let (next, _) = state.call(10_000, &Event::Measure(lines));
            assert_eq!((next.overrun, next.wave), (None, 50));
            lines[line] += 1;
            let (next, _) = state.call(10_000, &Event::Measure(lines));
            assert_eq!((next.overrun, next.wave), (Some(10_000), 50));
        }
    }
}

#[test]
fn nothing_is_judged_with_the_contactor_open_or_the_wave_steady() {
    let open = State {
        closed: false,
        ..digital(16_000)
    };
    let (stopping, _) = digital(16_000).call(10_000, &Event::Link(0));
    let (faulty, _) = digital(16_000).call(10_000, &Event::Fault(4));
    // The fault has opened the contactor as well.
    for (state, wave, closed) in [
        (open, 50, false),
        (stopping, 1_000, true),
        (faulty, 0, false),
    ] {
        assert_eq!((state.wave, state.closed), (wave, closed));
        assert_eq!(state.allowed(), None);
        let (next, _) = state.call(10_000, &Event::measure_one(LARGEST));
        assert_eq!((next.overrun, next.lines), (None, [LARGEST, 0, 0]));
    }
}

#[test]
fn nothing_is_judged_in_a_closed_post_lent_with_a_steady_wave() {
    // Step 3 commands 50 in each of these calls, and so leaves what step 1 did.
    for (wave, overrun, current) in [
        (0, None, LARGEST),
        (0, Some(9_000), 0),
        (1_000, None, LARGEST),
        (1_000, Some(9_000), 0),
    ] {
        let state = State {
            wave,
            overrun,
            ..digital(16_000)
        };
        assert_eq!((state.closed, state.allowed()), (true, None));
        let (next, outcome) = state.call(10_000, &Event::measure_one(current));
        assert_eq!(told(outcome.reply), (b'C', 2, 50, "closed"));
        assert_eq!(next.overrun, overrun, "{wave}");
    }
}

#[test]
fn fault_2_comes_after_5000() {
    let mut post = closed(16_000);
    assert_eq!(measured(&mut post, 50, 17_600), None);
    post.ready(60, 1_000);
    assert_eq!(measured(&mut post, 1_000, 17_601), Some(1_000));
    post.ready(1_000, 5_990);
    assert_eq!(measured(&mut post, 5_999, LARGEST), Some(1_000));
    let reply = post.call(6_000, Event::Link(16_000));
    assert_eq!((reply.faults, reply.closed), (OVER_CURRENT, false));
    assert_eq!(grant(&post), (16_000, false));
}

#[test]
fn refused_link_call_latches_nothing_at_5000() {
    for (time, current, faults) in [(5_049, 17_600, NO_FAULT), (5_050, 17_601, OVER_CURRENT)] {
        let mut post = closed(16_000);
        assert_eq!(measured(&mut post, 50, 17_601), Some(50));
        post.ready(50, 5_040);
        let reply = post.call(5_050, Event::Link(80_001));
        assert_eq!(
            (reply.refusal, reply.faults, reply.closed),
            (11, NO_FAULT, true)
        );
        assert_eq!((post.state.overrun, post.state.last), (Some(50), 5_040));
        // A measure may still end the over-run, and the next one latches.
        assert_eq!(measured(&mut post, time, current), None);
        assert_eq!(post.call(5_050, Event::Tick).faults, faults);
        assert_eq!(post.state.closed, faults == NO_FAULT);
    }
}

#[test]
fn lower_grant_and_lower_limit_restart_no_over_run() {
    let mut post = closed(16_000);
    post.ready(50, 1_000);
    assert_eq!(measured(&mut post, 1_000, 17_601), Some(1_000));
    for (time, event) in [(3_000, Event::Link(12_000)), (4_000, Event::Limit(10_000))] {
        post.ready(time, time);
        assert_eq!(told(post.call(time, event)), (b'C', 2, 50, "closed"));
        assert!(!post.outcome.unwrap().restarted);
        assert_eq!(post.state.overrun, Some(1_000));
    }
    assert_eq!(post.ready(5_999, 5_999).faults, NO_FAULT);
    assert_eq!(post.ready(6_000, 6_000).faults, OVER_CURRENT);
}

#[test]
fn changed_grant_counts_from_the_next_measure() {
    let mut post = closed(32_000);
    assert_eq!(measured(&mut post, 50, 17_601), None);
    link(&mut post, 60, 16_000);
    assert_eq!(post.state.overrun, None);
    assert_eq!(measured(&mut post, 60, 17_601), Some(60));
    link(&mut post, 70, 32_000);
    assert_eq!(post.state.overrun, Some(60));
    assert_eq!(measured(&mut post, 70, 17_601), None);
    // The same of the limit.
    post.call(80, Event::Limit(10_000));
    assert_eq!(measured(&mut post, 80, 11_000), None);
    assert_eq!(measured(&mut post, 80, 11_001), Some(80));
    assert_eq!(measured(&mut post, 80, 11_000), None);
}

#[test]
fn grant_below_6000_ends_an_over_run_that_has_not_latched() {
    for (granted, start, wave, after) in [
        (5_999, 5_001, 1_000, None),
        (6_000, 5_001, 50, Some(5_001)),
        (5_999, 5_000, 0, None),
        (6_000, 5_000, 0, None),
    ] {
        let state = State {
            overrun: Some(start),
            ..digital(16_000)
        };
        let (next, outcome) = state.call(10_000, &Event::Link(granted));
        assert_eq!((next.wave, next.overrun), (wave, after));
        assert_eq!(outcome.latched[1], wave == 0);
        assert_eq!((next.closed, next.grant), (wave != 0, granted));
    }
}

#[test]
fn over_run_that_a_stop_ended_starts_afresh() {
    let mut post = closed(16_000);
    assert_eq!(measured(&mut post, 50, 17_601), Some(50));
    link(&mut post, 60, 5_999);
    assert_eq!(measured(&mut post, 70, 17_601), None);
    link(&mut post, 80, 16_000);
    assert_eq!(post.state.overrun, None);
    assert_eq!(measured(&mut post, 90, 17_601), Some(90));
}
