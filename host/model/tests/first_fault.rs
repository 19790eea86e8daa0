//! Request f of document 02: the fault that is told is the one latched first.
//!
//! An over-run from 50 on is 5,000 old at 5,050.

mod common;

use chuldariin_model::*;
use common::latched::{after, both_over_running, fault_calls, order, told};
use common::latched::{digital_over_running, over_running, CALLED, FAULT_2_AT};
use common::linked::measured;
use common::{Post, LARGEST, MAX_TIME, NO_FAULT, OVER_CURRENT, TOO_MUCH};

// ---- The fault latched first ----

#[test]
fn begin_and_calls_without_a_fault_tell_0() {
    let mut post = Post::begin(0);
    assert_eq!(told(Reply::of(&post.state, 0)), 0);
    for event in [Event::Tick, Event::Clear, Event::Limit(32_000)] {
        assert_eq!(after(&mut post, 0, event), 0);
    }
    assert_eq!(order(&post), [0; 5]);
}

#[test]
fn reply_shows_the_fault_that_was_latched_first() {
    for [first, next, last] in CALLED {
        let mut post = Post::closed();
        assert_eq!(after(&mut post, 50, Event::Fault(first)), first);
        assert_eq!(after(&mut post, 60, Event::Fault(next)), first);
        assert_eq!(after(&mut post, 70, Event::Fault(last)), first);
        assert_eq!(order(&post), [first, next, last, 0, 0]);
    }
}

#[test]
fn calls_of_one_time_count_one_after_the_other() {
    for kinds in CALLED {
        fault_calls(&mut Post::begin(0), 0, &kinds, kinds[0]);
    }
}

#[test]
fn a_2_latched_before_a_fault_call_stays_first() {
    for mut post in both_over_running(5_040) {
        assert_eq!(after(&mut post, FAULT_2_AT, Event::Tick), 2);
        fault_calls(&mut post, FAULT_2_AT, &[5, 3, 4], 2);
        assert_eq!(order(&post), [2, 5, 3, 4, 0]);
    }
}

#[test]
fn a_1_latched_before_a_fault_call_stays_first() {
    let mut post = Post::closed();
    assert_eq!(told(post.sample(50, 6_000, 0)), 0);
    assert_eq!(told(post.sample(60, 6_000, 0)), 1);
    fault_calls(&mut post, 60, &[4, 3, 5], 1);
    assert_eq!(order(&post), [1, 4, 3, 5, 0]);
}

#[test]
fn call_of_any_kind_that_latches_2_alone_tells_2() {
    for event in [
        Event::Tick,
        Event::Limit(0),
        Event::Limit(16_000),
        Event::Limit(80_000),
        Event::Measure([LARGEST; 3]),
    ] {
        let [mut plain, mut digital] = both_over_running(5_040);
        assert_eq!(after(&mut plain, FAULT_2_AT, event), 2);
        assert_eq!(after(&mut digital, FAULT_2_AT, event), 2);
        assert_eq!(order(&plain), [2, 0, 0, 0, 0]);
        assert_eq!(order(&digital), [2, 0, 0, 0, 0]);
    }
}

#[test]
fn link_call_that_latches_2_tells_2_whatever_the_grant() {
    for granted in [0, 5_999, 6_000, 80_000] {
        let mut post = digital_over_running(5_040);
        assert_eq!(after(&mut post, FAULT_2_AT, Event::Link(granted)), 2);
        assert_eq!(order(&post), [2, 0, 0, 0, 0]);
    }
}

#[test]
fn a_2_is_told_if_the_call_opens_for_another_cause_too() {
    // More than 80 since the last sound sample.
    for mut post in both_over_running(4_960) {
        assert_eq!(after(&mut post, FAULT_2_AT, Event::Tick), 2);
        let causes = post.outcome.unwrap().causes;
        assert_eq!(causes, [false, true, false, false, true]);
    }
}

#[test]
fn a_2_is_told_if_the_call_settles_a_too() {
    for mut post in both_over_running(5_030) {
        assert_eq!(told(post.sample(5_040, 12_000, -12_000)), 0);
        assert_eq!(told(post.sample(FAULT_2_AT, 12_000, -12_000)), 2);
        // A settled A has set the digital post's grant to 0 before the latch.
        assert_eq!(post.outcome.unwrap().grant_reset, post.state.digital);
        assert_eq!((post.state.settled, post.state.closed), (None, false));
    }
}

#[test]
fn over_run_that_ends_in_step_1_takes_no_place() {
    for mut post in both_over_running(5_040) {
        let ends = Event::Measure([0; 3]);
        assert_eq!(after(&mut post, FAULT_2_AT, ends), 0);
        assert_eq!(after(&mut post, FAULT_2_AT, Event::Fault(5)), 5);
        assert_eq!(order(&post), [5, 0, 0, 0, 0]);
    }
}

// ---- Two faults in one call ----

#[test]
fn call_that_latches_both_1_and_2_tells_1() {
    for mut post in both_over_running(5_030) {
        assert_eq!(told(post.sample(5_040, 6_000, 0)), 0);
        let reply = post.sample(FAULT_2_AT, 6_000, 0);
        assert_eq!(reply.faults, [true, true, false, false, false]);
        assert_eq!((told(reply), order(&post)), (1, [1, 2, 0, 0, 0]));
    }
}

#[test]
fn faults_after_both_1_and_2_come_behind_them() {
    for kinds in CALLED {
        let mut post = over_running(5_030);
        post.sample(5_040, 6_000, 0);
        post.sample(FAULT_2_AT, 6_000, 0);
        fault_calls(&mut post, FAULT_2_AT, &kinds, 1);
        assert_eq!(order(&post), [1, 2, kinds[0], kinds[1], kinds[2]]);
        assert_eq!(post.state.faults, [true; 5]);
    }
}

#[test]
fn sample_that_latches_1_before_5000_leaves_no_2_behind() {
    for mut post in both_over_running(5_030) {
        post.sample(5_040, 6_000, 0);
        assert_eq!(told(post.sample(5_049, 6_000, 0)), 1);
        // The wave of 0 has ended the over-run.
        assert_eq!(after(&mut post, FAULT_2_AT, Event::Tick), 1);
        assert_eq!(order(&post), [1, 0, 0, 0, 0]);
    }
}

#[test]
fn sample_that_latches_2_leaves_no_1_behind() {
    for mut post in both_over_running(5_040) {
        assert_eq!(told(post.sample(FAULT_2_AT, 6_000, 0)), 2);
        // No sample is bad under a wave of 0.
        assert_eq!(told(post.sample(5_060, 6_000, 0)), 2);
        assert_eq!(told(post.sample(5_070, 6_000, 0)), 2);
        assert_eq!(order(&post), [2, 0, 0, 0, 0]);
    }
}

#[test]
fn own_fault_of_a_fault_call_comes_before_a_2_latched_in_that_call() {
    for kind in [3, 4, 5] {
        let [mut plain, mut digital] = both_over_running(5_040);
        assert_eq!(after(&mut plain, FAULT_2_AT, Event::Fault(kind)), kind);
        assert_eq!(after(&mut digital, FAULT_2_AT, Event::Fault(kind)), kind);
        assert_eq!(order(&plain), [kind, 2, 0, 0, 0]);
        assert_eq!(order(&digital), [kind, 2, 0, 0, 0]);
    }
}

#[test]
fn later_faults_come_behind_the_own_fault_and_its_2() {
    for [first, next, last] in CALLED {
        let mut post = over_running(5_040);
        fault_calls(&mut post, FAULT_2_AT, &[first, next, last, first], first);
        assert_eq!(order(&post), [first, 2, next, last, 0]);
    }
}

#[test]
fn fault_call_before_5000_leaves_no_2_behind() {
    for mut post in both_over_running(5_040) {
        assert_eq!(after(&mut post, 5_049, Event::Fault(4)), 4);
        assert_eq!(after(&mut post, FAULT_2_AT, Event::Tick), 4);
        assert_eq!(order(&post), [4, 0, 0, 0, 0]);
    }
}

// ---- Told again ----

#[test]
fn fault_that_is_told_again_keeps_its_first_place() {
    for [first, next, last] in CALLED {
        let mut post = Post::closed();
        let kinds = [first, first, next, first, next, last, last, next, first];
        fault_calls(&mut post, 50, &kinds, first);
        assert_eq!(order(&post), [first, next, last, 0, 0]);
    }
}

#[test]
fn later_fault_that_is_told_again_keeps_its_later_place() {
    for mut post in both_over_running(5_040) {
        fault_calls(&mut post, FAULT_2_AT, &[4, 3, 3, 5, 3, 4, 3], 4);
        assert_eq!(order(&post), [4, 2, 3, 5, 0]);
    }
}

#[test]
fn fault_that_is_told_again_still_unsettles_and_forgets() {
    let mut post = Post::closed();
    fault_calls(&mut post, 50, &[3, 4], 3);
    assert_eq!(told(post.ready(60, 70)), 3);
    assert_eq!(post.state.settled, Some(Band::C));
    assert_eq!(after(&mut post, 80, Event::Fault(4)), 3);
    assert_eq!((post.state.settled, post.state.previous), (None, None));
}

// ---- Clear ----

#[test]
fn clear_empties_the_order() {
    for [first, next, last] in CALLED {
        let mut post = Post::closed();
        fault_calls(&mut post, 50, &[first, next, last], first);
        assert_eq!(after(&mut post, 50, Event::Clear), 0);
        assert_eq!(order(&post), [0; 5]);
        // They come back, the last first.
        fault_calls(&mut post, 50, &[last, first, next], last);
        assert_eq!(order(&post), [last, first, next, 0, 0]);
    }
}

#[test]
fn clear_that_latches_2_tells_2() {
    for mut post in both_over_running(5_040) {
        assert_eq!(after(&mut post, FAULT_2_AT, Event::Clear), 2);
        assert_eq!(post.state.faults, OVER_CURRENT);
        assert_eq!(after(&mut post, FAULT_2_AT, Event::Fault(3)), 2);
        assert_eq!(after(&mut post, FAULT_2_AT, Event::Clear), 0);
        assert_eq!(order(&post), [0; 5]);
    }
}

#[test]
fn a_2_after_a_clear_comes_before_a_fault_from_before_the_clear() {
    let mut post = Post::closed_with(3_000);
    assert_eq!(after(&mut post, 50, Event::Fault(3)), 3);
    assert_eq!(after(&mut post, 60, Event::Clear), 0);
    post.sample(4_000, 9_000, 9_000);
    post.sample(4_010, 9_000, 9_000);
    assert!(post.ready(4_020, 4_030).closed);
    assert_eq!(measured(&mut post, 4_030, TOO_MUCH), Some(4_030));
    assert_eq!(post.ready(4_040, 9_020).faults, NO_FAULT);
    assert_eq!(after(&mut post, 9_030, Event::Tick), 2);
    assert_eq!(after(&mut post, 9_030, Event::Fault(3)), 2);
    assert_eq!(order(&post), [2, 3, 0, 0, 0]);
}

#[test]
fn begin_starts_an_empty_order() {
    let mut post = Post::closed();
    assert_eq!(after(&mut post, MAX_TIME, Event::Fault(3)), 3);
    post = Post::begin(0);
    assert_eq!(order(&post), [0; 5]);
    fault_calls(&mut post, 0, &[4, 3], 4);
}
