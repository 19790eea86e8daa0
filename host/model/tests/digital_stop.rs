//! Request e of document 02, a digital post: a grant below 6,000 while closed.

mod common;

use chuldariin_model::*;
use common::linked::{closed, grant, link, told, NO_DIODE, STOPPED, UNSOUND};
use common::Post;

/// Closed, with this grant at 50, C samples until 3,040 and a tick at 3,049.
fn stopping(granted: u32) -> Post {
    let mut post = closed(16_000);
    assert_eq!(link(&mut post, 45, 6_000), (b'C', 2, 50, "closed"));
    assert_eq!(post.state.stop, None);
    assert_eq!(link(&mut post, 50, granted), (b'C', 1, 1_000, "closed"));
    assert_eq!(post.state.stop, Some(50));
    post.ready(50, 3_040);
    let reply = post.call(3_049, Event::Tick);
    assert_eq!(told(reply), (b'C', 1, 1_000, "closed"));
    post
}

#[test]
fn stop_for_want_of_a_grant_opens_after_3000() {
    for granted in [0, 5_999] {
        let mut post = stopping(granted);
        let reply = post.call(3_050, Event::Tick);
        assert_eq!(told(reply), (b'C', 1, 1_000, "open"));
        assert_eq!(post.outcome.unwrap().causes, STOPPED);
        // With the contactor open the next call has 50 again.
        let reply = post.call(3_050, Event::Tick);
        assert_eq!(told(reply), (b'C', 2, 50, "open"));
        assert_eq!(grant(&post), (granted, false));
        assert_eq!(told(post.ready(3_060, 6_060)), (b'C', 2, 50, "open"));
    }
}

#[test]
fn grant_at_the_very_end_of_the_stop() {
    assert_eq!(
        link(&mut stopping(0), 3_050, 5_999),
        (b'C', 1, 1_000, "open")
    );
    let mut post = stopping(0);
    assert_eq!(link(&mut post, 3_050, 6_000), (b'C', 2, 50, "closed"));
    assert_eq!(post.state.stop, None);
    assert_eq!(told(post.ready(3_060, 9_000)), (b'C', 2, 50, "closed"));
}

#[test]
fn refused_link_call_opens_nothing_at_the_end_of_the_stop() {
    let mut post = stopping(0);
    for time in [3_050, 3_051, 9_000] {
        let reply = post.call(time, Event::Link(80_001));
        assert_eq!((reply.refusal, reply.wave, reply.closed), (11, 1_000, true));
        assert_eq!((post.state.stop, post.state.last), (Some(50), 3_049));
    }
    // The stop is 3,000 old in the next accepted call as well, which may end it.
    assert_eq!(link(&mut post, 3_050, 6_000), (b'C', 2, 50, "closed"));
    let mut post = stopping(0);
    assert_eq!(post.call(3_050, Event::Link(80_001)).refusal, 11);
    let reply = post.call(3_050, Event::Tick);
    assert_eq!(told(reply), (b'C', 1, 1_000, "open"));
    assert_eq!(post.outcome.unwrap().causes, STOPPED);
}

#[test]
fn repeated_low_grants_leave_the_stop() {
    let mut post = closed(16_000);
    for (time, granted) in [(50, 0), (1_000, 5_999), (2_000, 0), (3_049, 5_999)] {
        post.ready(time, time);
        let reply = link(&mut post, time, granted);
        assert_eq!(reply, (b'C', 1, 1_000, "closed"), "{time}");
        assert_eq!(post.state.stop, Some(50), "{time}");
    }
    assert_eq!(told(post.ready(3_050, 3_050)), (b'C', 1, 1_000, "open"));
    assert_eq!(post.outcome.unwrap().causes, STOPPED);
}

#[test]
fn stop_that_ended_starts_anew() {
    let mut post = closed(16_000);
    link(&mut post, 50, 0);
    assert_eq!(link(&mut post, 60, 16_000), (b'C', 2, 50, "closed"));
    assert_eq!(post.state.stop, None);
    link(&mut post, 70, 0);
    assert_eq!(post.state.stop, Some(70));
    assert_eq!(told(post.ready(70, 3_060)), (b'C', 1, 1_000, "closed"));
    assert_eq!(told(post.ready(3_069, 3_069)), (b'C', 1, 1_000, "closed"));
    assert_eq!(told(post.ready(3_070, 3_070)), (b'C', 1, 1_000, "open"));
}

#[test]
fn stop_by_limit_and_grant_ends_with_the_last_of_them() {
    let mut post = closed(16_000);
    let reply = post.call(50, Event::Limit(0));
    assert_eq!(told(reply), (b'C', 1, 1_000, "closed"));
    assert_eq!(link(&mut post, 60, 0), (b'C', 1, 1_000, "closed"));
    let reply = post.call(70, Event::Limit(32_000));
    assert_eq!(told(reply), (b'C', 1, 1_000, "closed"));
    assert_eq!(post.state.stop, Some(50));
    assert_eq!(link(&mut post, 80, 6_000), (b'C', 2, 50, "closed"));
    assert_eq!(post.state.stop, None);
}

#[test]
fn stop_by_grant_and_limit_counts_from_the_first() {
    let mut post = closed(16_000);
    link(&mut post, 50, 0);
    post.call(60, Event::Limit(5_999));
    assert_eq!(link(&mut post, 70, 80_000), (b'C', 1, 1_000, "closed"));
    assert_eq!(post.state.stop, Some(50));
    assert_eq!(told(post.ready(80, 3_040)), (b'C', 1, 1_000, "closed"));
    assert_eq!(told(post.ready(3_050, 3_050)), (b'C', 1, 1_000, "open"));
    // The limit holds the wave after the opening too.
    assert_eq!(told(post.ready(3_060, 3_060)), (b'C', 1, 1_000, "open"));
    let reply = post.call(3_070, Event::Limit(6_000));
    assert_eq!(told(reply), (b'C', 2, 50, "open"));
}

#[test]
fn samples_of_a_stop_are_judged_under_1000() {
    let mut post = closed(16_000);
    link(&mut post, 50, 0);
    for time in [60, 70] {
        let reply = post.sample(time, 6_000, 6_000);
        assert_eq!(told(reply), (b'C', 1, 1_000, "closed"));
    }
    // From the next call on the low level counts.
    assert_eq!(link(&mut post, 75, 16_000), (b'C', 2, 50, "closed"));
    let reply = post.sample(80, 6_000, 6_000);
    assert_eq!(told(reply), (b'C', 2, 50, "closed"));
    let reply = post.sample(90, 6_000, 6_000);
    assert_eq!(told(reply), (b'F', 0, 0, "open"));
    assert_eq!(reply.faults, NO_DIODE);
}

#[test]
fn call_that_opens_for_another_cause_still_tells_1000() {
    let mut post = closed(16_000);
    link(&mut post, 45, 0);
    let reply = post.sample(50, 9_000, -12_000);
    assert_eq!(told(reply), (b'C', 1, 1_000, "closed"));
    let reply = post.sample(60, 9_000, -12_000);
    assert_eq!(told(reply), (b'B', 1, 1_000, "open"));
    assert_eq!(post.outcome.unwrap().causes, UNSOUND);
    let reply = post.sample(70, 9_000, -12_000);
    assert_eq!(told(reply), (b'B', 2, 50, "open"));
}

#[test]
fn link_call_opens_on_an_old_sound_sample() {
    for (granted, digit, wave) in [(0, 1, 1_000), (20_000, 2, 50)] {
        let mut post = closed(16_000);
        assert_eq!(link(&mut post, 120, 16_000), (b'C', 2, 50, "closed"));
        let reply = link(&mut post, 121, granted);
        assert_eq!(reply, (b'C', digit, wave, "open"));
        let causes = post.outcome.unwrap().causes;
        assert_eq!(causes, [false, true, false, false, false]);
        assert_eq!((post.state.stop, post.state.grant), (None, granted));
        let reply = post.call(122, Event::Tick);
        assert_eq!(told(reply), (b'C', 2, 50, "open"));
    }
}
