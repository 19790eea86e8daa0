//! Request f of document 02: refused calls, and calls under a latched fault.

mod common;

use chuldariin_model::*;
use common::latched::{after, both_over_running, fault_calls, order, told, FAULT_2_AT};
use common::linked::begun;
use common::{unsupported, Post, LARGEST, MAX_TIME, NO_FAULT};

/// A plain post and a digital one at 100, with 4 latched before 3.
fn both_with_4_and_3() -> [Post; 2] {
    [Post::closed(), begun(false)].map(|mut post| {
        fault_calls(&mut post, 100, &[4, 3], 4);
        post
    })
}

/// The fault told beside this refusal number.
fn beside(refusal: u8, post: &mut Post, time: u64, event: Event) -> u32 {
    let reply = post.call(time, event);
    assert_eq!(reply.refusal, refusal, "{event:?}");
    told(reply)
}

/// Accepted calls at one time, after each of which 4 must still be told.
fn still_4(post: &mut Post, time: u64, events: &[Event]) {
    for &event in events {
        assert_eq!(after(post, time, event), 4, "{event:?}");
    }
    assert_eq!(order(post), [4, 3, 0, 0, 0]);
}

// ---- Refused calls ----

/// Calls refused with every number but 1, 11 and 12, each of which must show 4.
fn refused_shows_4(post: &mut Post) {
    for (refusal, time, event) in [
        (2, 99, Event::Tick),
        (3, MAX_TIME + 1, Event::Tick),
        (4, 100, Event::Sample(&[])),
        (5, 100, Event::Sample(&[15_001; 256])),
        (6, 100, Event::Sample(&unsupported())),
        (13, 100, Event::Limit(80_001)),
        (7, 100, Event::Measure([0, 0, LARGEST + 1])),
        (8, 100, Event::Fault(6)),
    ] {
        assert_eq!(beside(refusal, post, time, event), 4);
        assert_eq!(order(post), [4, 3, 0, 0, 0]);
    }
}

#[test]
fn refused_calls_show_the_first_and_leave_the_order() {
    let [mut plain, mut digital] = both_with_4_and_3();
    refused_shows_4(&mut plain);
    refused_shows_4(&mut digital);
    assert_eq!(beside(12, &mut plain, 100, Event::Link(6_000)), 4);
    assert_eq!(beside(11, &mut digital, 100, Event::Link(80_001)), 4);
    still_4(&mut plain, 100, &[Event::Tick]);
    still_4(&mut digital, 100, &[Event::Tick]);
}

#[test]
fn refused_fault_call_takes_no_place() {
    let mut post = Post::begin(0);
    assert_eq!(after(&mut post, 100, Event::Tick), 0);
    assert_eq!(beside(2, &mut post, 99, Event::Fault(3)), 0);
    assert_eq!(beside(3, &mut post, MAX_TIME + 1, Event::Fault(5)), 0);
    for kind in [0, 1, 2, 6, u32::MAX] {
        assert_eq!(beside(8, &mut post, 100, Event::Fault(kind)), 0);
    }
    assert_eq!(order(&post), [0; 5]);
    fault_calls(&mut post, 100, &[4, 3], 4);
}

#[test]
fn refused_clear_empties_nothing() {
    for mut post in both_with_4_and_3() {
        assert_eq!(beside(2, &mut post, 99, Event::Clear), 4);
        assert_eq!(beside(3, &mut post, MAX_TIME + 1, Event::Clear), 4);
        still_4(&mut post, 100, &[Event::Fault(3)]);
    }
}

/// Refused calls to a post whose over-run is 5,000 old, and then this one.
fn next_call_orders(mut post: Post, event: Event, places: [u32; 5]) {
    assert_eq!(beside(8, &mut post, FAULT_2_AT, Event::Fault(2)), 0);
    assert_eq!(beside(2, &mut post, 5_039, Event::Fault(4)), 0);
    assert_eq!(post.state.faults, NO_FAULT);
    assert_eq!(after(&mut post, FAULT_2_AT, event), places[0]);
    assert_eq!(order(&post), places);
}

#[test]
fn refused_call_at_5000_latches_nothing_and_the_next_call_gives_the_order() {
    for (event, places) in [
        (Event::Tick, [2, 0, 0, 0, 0]),
        (Event::Clear, [2, 0, 0, 0, 0]),
        (Event::Fault(3), [3, 2, 0, 0, 0]),
        (Event::Fault(5), [5, 2, 0, 0, 0]),
    ] {
        let [plain, digital] = both_over_running(5_040);
        next_call_orders(plain, event, places);
        next_call_orders(digital, event, places);
    }
}

#[test]
fn refused_begin_comes_alone() {
    for (time, rated, refusal) in [(MAX_TIME + 1, 32_000, 3), (0, 5_999, 1)] {
        let asked = Begin {
            time,
            rated,
            pause: 0,
            ventilation: false,
            digital: false,
        };
        assert_eq!(begin(&asked), Err(refusal));
        assert_eq!(told(Reply::alone(refusal)), 0);
    }
}

// ---- Calls under a latched fault ----

#[test]
fn only_a_latch_and_a_clear_change_the_order() {
    for mut post in both_with_4_and_3() {
        let events = [
            Event::Tick,
            Event::Limit(0),
            Event::Limit(16_000),
            Event::Limit(80_000),
            Event::Measure([LARGEST; 3]),
            Event::Measure([0; 3]),
        ];
        still_4(&mut post, 200, &events);
        still_4(&mut post, 100_000, &events);
        still_4(&mut post, MAX_TIME, &events);
    }
}

#[test]
fn link_calls_under_a_latched_fault_leave_the_order() {
    let [_, mut digital] = both_with_4_and_3();
    still_4(&mut digital, 200, &[6_000, 80_000, 0].map(Event::Link));
}

/// Samples of one high level under a latched fault, as a pair of either low level.
fn samples_tell_4(post: &mut Post, high: i32) {
    for low in [high, high, -12_000, -12_000] {
        let reply = post.sample(200, high, low);
        assert_eq!((told(reply), reply.letter, reply.digit), (4, b'F', 0));
    }
}

#[test]
fn samples_under_a_latched_fault_leave_the_order() {
    for high in [12_000, 9_000, 7_500, 6_000, 3_000, 0, -12_000] {
        let [mut plain, mut digital] = both_with_4_and_3();
        samples_tell_4(&mut plain, high);
        samples_tell_4(&mut digital, high);
        still_4(&mut plain, 200, &[Event::Tick]);
        still_4(&mut digital, 200, &[Event::Tick]);
    }
}

#[test]
fn fault_call_with_a_settled_tells_the_first() {
    let mut post = begun(false);
    post.sample(10, 12_000, 12_000);
    assert_eq!(told(post.sample(20, 12_000, 12_000)), 0);
    assert_eq!(post.state.settled, Some(Band::A));
    assert_eq!(after(&mut post, 30, Event::Fault(5)), 5);
    // A settles again under the fault, and the next fault comes behind.
    post.sample(40, 12_000, 12_000);
    assert_eq!(told(post.sample(50, 12_000, 12_000)), 5);
    assert_eq!(post.state.settled, Some(Band::A));
    assert_eq!(after(&mut post, 60, Event::Fault(3)), 5);
    assert_eq!(order(&post), [5, 3, 0, 0, 0]);
}
