//! Request f of document 02: controllers that no list leads to.

mod common;

use chuldariin_model::*;
use common::latched::{after, fault_calls, over_running, told, told_open, FAULT_2_AT};
use common::linked::digital;
use common::{charging, window, Post, MAX_TIME};

/// Every set of latched faults.
fn sets() -> impl Iterator<Item = [bool; 5]> {
    (0..32).map(|bits| [1, 2, 4, 8, 16].map(|bit| bits & bit != 0))
}

/// Controllers of a host's making, plain and digital, with every set of faults.
fn lent() -> impl Iterator<Item = State> {
    sets().flat_map(|faults| [charging(), digital(16_000)].map(|state| State { faults, ..state }))
}

/// The controller after an accepted call, which must leave the fault open.
fn open_after(state: &State, time: u64, event: Event) -> State {
    let (next, outcome) = state.call(time, &event);
    assert_eq!(outcome.reply.refusal, 0, "{event:?}");
    assert_eq!(next.order, None);
    told_open(outcome.reply);
    next
}

// ---- Which latched fault is shown stays open ----

#[test]
fn any_latched_fault_may_be_told_and_no_other() {
    for state in lent() {
        told_open(Reply::of(&state, 0));
        let next = open_after(&state, 10_000, Event::Tick);
        assert_eq!(next.faults, state.faults);
    }
}

/// A refused call, which must leave the controller as it is and its fault open.
fn open_beside(refusal: u8, state: &State, time: u64, event: Event) {
    let (same, outcome) = state.call(time, &event);
    assert_eq!(outcome.reply, Reply::of(state, refusal));
    assert_eq!(same, *state);
    told_open(outcome.reply);
}

#[test]
fn it_stays_open_beside_a_refusal() {
    for state in lent() {
        open_beside(1, &State { wave: 1, ..state }, 10_000, Event::Clear);
        open_beside(2, &state, 9_999, Event::Clear);
        open_beside(3, &state, MAX_TIME + 1, Event::Clear);
        open_beside(4, &state, 10_000, Event::Sample(&[]));
        open_beside(13, &state, 10_000, Event::Limit(80_001));
        open_beside(8, &state, 10_000, Event::Fault(1));
    }
}

#[test]
fn it_stays_open_after_fault_calls() {
    for state in lent() {
        let next = open_after(&state, 10_000, Event::Fault(4));
        let next = open_after(&next, 10_000, Event::Fault(3));
        assert!(next.faults[2] && next.faults[3]);
    }
}

#[test]
fn it_stays_open_where_one_call_latches_two() {
    for state in lent() {
        // The next bad sample latches 1, and any call latches 2.
        let ripe = State {
            overrun: Some(5_000),
            previous: Some(verdict(6_000, 0, true, false)),
            ..state
        };
        let next = open_after(&ripe, 10_000, Event::Sample(&window(6_000, 0)));
        assert!(next.faults[0] && next.faults[1]);
        let next = open_after(&ripe, 10_000, Event::Fault(5));
        assert!(next.faults[1] && next.faults[4]);
    }
}

#[test]
fn it_stays_open_after_a_clear() {
    for state in lent() {
        let next = open_after(&state, 10_000, Event::Clear);
        assert_eq!(next.faults, [false; 5]);
        let next = open_after(&next, 10_010, Event::Fault(4));
        open_after(&next, 10_020, Event::Fault(3));
    }
}

// ---- An altered order ----

/// Posts in which 3 was latched before 4, with their faults altered to every other set.
fn altered() -> impl Iterator<Item = State> {
    let mut post = Post::closed();
    fault_calls(&mut post, 50, &[3, 4], 3);
    let reached = post.state;
    let others = sets().filter(move |&faults| faults != reached.faults);
    others.map(move |faults| State { faults, ..reached })
}

#[test]
fn order_with_other_faults_than_the_latched_ones_is_not_known() {
    for state in altered() {
        assert_eq!(state.known_order(), None);
        told_open(Reply::of(&state, 0));
        // Later calls bring the faults of the order back, and it stays open.
        let next = open_after(&state, 50, Event::Fault(4));
        let next = open_after(&next, 50, Event::Fault(3));
        let next = open_after(&next, 50, Event::Clear);
        let next = open_after(&next, 50, Event::Fault(3));
        open_after(&next, 50, Event::Fault(4));
    }
}

#[test]
fn altered_order_is_no_refusal_1_and_a_refused_call_leaves_it() {
    for state in altered() {
        assert_eq!(refusal_of_call(&state, 50, &Event::Tick), 0);
        open_beside(2, &state, 49, Event::Clear);
    }
}

#[test]
fn list_from_begin_leaves_nothing_open_until_it_is_altered() {
    let mut post = over_running(5_040);
    assert_eq!(after(&mut post, FAULT_2_AT, Event::Fault(4)), 4);
    let lent = State {
        order: None,
        ..post.state
    };
    let next = open_after(&lent, FAULT_2_AT, Event::Fault(3));
    assert_eq!(next.faults, [false, true, true, true, false]);
    assert_eq!(after(&mut post, FAULT_2_AT, Event::Fault(3)), 4);
    assert_eq!(told(Reply::of(&post.state, 2)), 4);
}
