//! Request e of document 02, a digital post: its grant under faults and a settled A.

mod common;

use chuldariin_model::*;
use common::linked::{begun, closed, digital, grant, link, measured, told, UNSOUND};
use common::{Post, NO_FAULT, OVER_CURRENT};

// ---- Faults ----

#[test]
fn fault_and_clear_leave_the_grant_to_the_link() {
    let mut post = closed(16_000);
    assert_eq!(told(post.call(50, Event::Fault(3))), (b'F', 0, 0, "open"));
    assert_eq!(grant(&post), (16_000, false));
    assert_eq!(link(&mut post, 60, 0), (b'F', 0, 0, "open"));
    assert_eq!(link(&mut post, 70, 20_000), (b'F', 0, 0, "open"));
    assert_eq!(told(post.call(80, Event::Clear)), (b'U', 0, 1_000, "open"));
    assert_eq!(grant(&post), (20_000, false));
    assert_eq!(told(post.ready(90, 90)), (b'U', 0, 1_000, "open"));
    assert_eq!(told(post.ready(100, 3_040)), (b'C', 2, 50, "open"));
    assert_eq!(told(post.ready(3_050, 3_050)), (b'C', 2, 50, "closed"));
}

#[test]
fn wave_is_0_with_a_fault_and_no_grant() {
    let mut post = closed(16_000);
    assert_eq!(link(&mut post, 50, 0), (b'C', 1, 1_000, "closed"));
    assert_eq!(told(post.call(60, Event::Fault(5))), (b'F', 0, 0, "open"));
    assert_eq!(post.state.stop, None);
    // Closed with a fault before the call: only an altered controller.
    let mut state = digital(0);
    state.faults[4] = true;
    let (next, outcome) = state.call(10_000, &Event::Tick);
    assert_eq!(told(outcome.reply), (b'F', 0, 0, "open"));
    assert_eq!(outcome.causes, [false, false, false, false, true]);
    assert_eq!(next.stop, None);
}

// ---- Settled A ----

#[test]
fn settling_a_sets_the_grant_to_0() {
    let mut post = begun(false);
    assert_eq!(link(&mut post, 5, 16_000), (b'U', 0, 1_000, "open"));
    post.sample(10, 12_000, 12_000);
    assert_eq!(grant(&post), (16_000, false));
    let reply = post.sample(20, 12_000, 12_000);
    assert_eq!(told(reply), (b'A', 1, 1_000, "open"));
    assert_eq!(grant(&post), (0, true));
    post.sample(30, 12_000, 12_000);
    assert_eq!(grant(&post), (0, false));
}

#[test]
fn link_call_with_a_settled_is_accepted_and_leaves_0() {
    let mut post = begun(false);
    post.sample(10, 12_000, 12_000);
    post.sample(20, 12_000, 12_000);
    for (granted, reset) in [(0, false), (1, true), (6_000, true), (80_000, true)] {
        assert_eq!(link(&mut post, 20, granted), (b'A', 1, 1_000, "open"));
        assert_eq!(grant(&post), (0, reset), "{granted}");
    }
}

#[test]
fn link_call_before_b_is_settled_is_lost() {
    let mut post = begun(false);
    for (time, high) in [(10, 12_000), (20, 12_000), (30, 9_000)] {
        post.sample(time, high, high);
    }
    assert_eq!(link(&mut post, 40, 16_000), (b'A', 1, 1_000, "open"));
    assert_eq!(grant(&post), (0, true));
    let reply = post.sample(40, 9_000, 9_000);
    assert_eq!(told(reply), (b'B', 2, 50, "open"));
    assert_eq!(told(post.ready(50, 200)), (b'C', 2, 50, "open"));
}

#[test]
fn link_call_once_b_is_settled_is_kept() {
    let mut post = begun(false);
    for (time, high) in [(10, 12_000), (20, 12_000), (30, 9_000), (40, 9_000)] {
        post.sample(time, high, high);
    }
    assert_eq!(link(&mut post, 40, 16_000), (b'B', 2, 50, "open"));
    assert_eq!(grant(&post), (16_000, false));
    assert_eq!(told(post.ready(50, 60)), (b'C', 2, 50, "closed"));
}

#[test]
fn one_a_sample_leaves_the_grant() {
    let mut post = closed(16_000);
    let reply = post.sample(50, 12_000, -12_000);
    assert_eq!(told(reply), (b'C', 2, 50, "closed"));
    assert_eq!(grant(&post), (16_000, false));
    link(&mut post, 55, 20_000);
    assert_eq!(told(post.ready(60, 60)), (b'C', 2, 50, "closed"));
    // A sample without a band lies between: they are not successive.
    post.sample(70, 12_000, -12_000);
    post.sample(80, 7_200, -12_000);
    post.sample(90, 12_000, -12_000);
    assert_eq!(grant(&post), (20_000, false));
}

#[test]
fn van_that_leaves_loses_its_grant() {
    let mut post = closed(16_000);
    post.sample(50, 12_000, -12_000);
    link(&mut post, 55, 20_000);
    let reply = post.sample(60, 12_000, -12_000);
    assert_eq!(told(reply), (b'A', 1, 1_000, "open"));
    assert_eq!(post.outcome.unwrap().causes, UNSOUND);
    assert_eq!(grant(&post), (0, true));
    post.sample(70, 9_000, 9_000);
    let reply = post.sample(80, 9_000, 9_000);
    assert_eq!(told(reply), (b'B', 2, 50, "open"));
    assert_eq!(told(post.ready(90, 4_000)), (b'C', 2, 50, "open"));
    link(&mut post, 4_001, 6_000);
    assert_eq!(told(post.ready(4_010, 4_010)), (b'C', 2, 50, "closed"));
    assert_eq!(post.state.closings, 2);
}

#[test]
fn other_settled_states_leave_the_grant() {
    let mut post = begun(false);
    link(&mut post, 0, 16_000);
    for (time, high, letter) in [(10, 0, b'E'), (30, 3_000, b'D'), (50, 9_000, b'B')] {
        post.sample(time, high, high);
        assert_eq!(post.sample(time + 10, high, high).letter, letter);
        assert_eq!(grant(&post), (16_000, false));
    }
    assert_eq!(told(post.ready(70, 80)), (b'C', 2, 50, "closed"));
}

#[test]
fn a_settles_under_a_latched_fault() {
    let mut post = begun(false);
    link(&mut post, 5, 16_000);
    post.call(6, Event::Fault(3));
    post.sample(10, 12_000, 12_000);
    assert_eq!(grant(&post), (16_000, false));
    let reply = post.sample(20, 12_000, 12_000);
    assert_eq!(told(reply), (b'F', 0, 0, "open"));
    assert_eq!(grant(&post), (0, true));
    assert_eq!(link(&mut post, 30, 9_000), (b'F', 0, 0, "open"));
    assert_eq!(grant(&post), (0, true));
    // The fault call unsettles A, and the link call after it finds U.
    post.call(40, Event::Fault(3));
    link(&mut post, 50, 9_000);
    assert_eq!(grant(&post), (9_000, false));
    assert_eq!(told(post.call(60, Event::Clear)), (b'U', 0, 1_000, "open"));
    assert_eq!(grant(&post), (9_000, false));
}

/// Clear, B, B, C, C with the pause over: only a grant is missing, and a new one closes.
fn next_van_needs_its_own_grant(mut post: Post) {
    let closings = post.state.closings;
    post.call(5_060, Event::Clear);
    post.sample(9_000, 9_000, 9_000);
    let reply = post.sample(9_010, 9_000, 9_000);
    assert_eq!(told(reply), (b'B', 2, 50, "open"));
    assert_eq!(told(post.ready(9_020, 9_030)), (b'C', 2, 50, "open"));
    let conditions = post.outcome.unwrap().conditions;
    let granted = true;
    assert!(
        !conditions.granted
            && Conditions {
                granted,
                ..conditions
            }
            .all()
    );
    assert_eq!(link(&mut post, 9_031, 6_000), (b'C', 2, 50, "open"));
    assert_eq!(told(post.ready(9_040, 9_040)), (b'C', 2, 50, "closed"));
    assert_eq!(post.state.closings, closings + 1);
}

#[test]
fn a_settles_and_a_latch_unsettles_it_in_one_call() {
    for (time, letter, wave, settled, faults) in [
        (5_049, b'A', 1_000, Some(Band::A), NO_FAULT),
        (5_050, b'F', 0, None, OVER_CURRENT),
    ] {
        let mut post = closed(16_000);
        assert_eq!(measured(&mut post, 50, 17_601), Some(50));
        post.ready(50, 5_030);
        post.sample(5_040, 12_000, -12_000);
        assert_eq!(grant(&post), (16_000, false));
        let reply = post.sample(time, 12_000, -12_000);
        assert_eq!((reply.letter, reply.wave), (letter, wave));
        assert_eq!((post.state.settled, reply.faults), (settled, faults));
        assert_eq!(grant(&post), (0, true), "{time}");
        assert!(post.outcome.unwrap().causes[0] && !reply.closed);
        next_van_needs_its_own_grant(post);
    }
}

#[test]
fn a_latch_before_a_settles_leaves_the_grant() {
    let mut post = closed(16_000);
    measured(&mut post, 50, 17_601);
    post.ready(50, 5_040);
    post.sample(5_049, 12_000, -12_000);
    assert_eq!(post.call(5_050, Event::Tick).faults, OVER_CURRENT);
    // The latch forgot the sample at 5,049: the next one has no partner.
    post.sample(5_060, 12_000, -12_000);
    assert_eq!(grant(&post), (16_000, false));
    post.sample(5_070, 12_000, -12_000);
    assert_eq!(grant(&post), (0, true));
}
