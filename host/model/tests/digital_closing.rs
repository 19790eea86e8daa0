//! Request e of document 02, a digital post: closing.

mod common;

use chuldariin_model::*;
use common::linked::{
    begun, begun_with, close, closed, connect, connected, grant, link, told, STOPPED,
};
use common::MAX_TIME;

#[test]
fn closing_wants_a_grant_of_6000() {
    for (granted, contactor, closings) in [
        (0, "open", 0),
        (5_999, "open", 0),
        (6_000, "closed", 1),
        (80_000, "closed", 1),
    ] {
        let mut post = connected();
        link(&mut post, 25, granted);
        assert_eq!(told(post.ready(30, 40)), (b'C', 2, 50, contactor));
        assert_eq!(post.state.closings, closings, "{granted}");
    }
}

#[test]
fn only_the_grant_is_missing() {
    let mut post = connected();
    assert_eq!(told(post.ready(30, 5_000)), (b'C', 2, 50, "open"));
    let missing = post.outcome.unwrap().conditions;
    assert!(!missing.granted && !missing.all());
    let granted = true;
    assert!(Conditions { granted, ..missing }.all());
    assert_eq!(post.state.closings, 0);
}

#[test]
fn grant_after_the_pair_closes_at_the_next_sample() {
    let mut post = connected();
    post.ready(30, 40);
    assert_eq!(link(&mut post, 45, 6_000), (b'C', 2, 50, "open"));
    let conditions = post.outcome.unwrap().conditions;
    assert!(conditions.granted && !conditions.sample);
    assert_eq!(told(post.ready(50, 50)), (b'C', 2, 50, "closed"));
}

#[test]
fn grant_and_samples_at_one_time() {
    let mut post = connected();
    post.ready(30, 30);
    post.ready(30, 30);
    assert_eq!(link(&mut post, 30, 6_000), (b'C', 2, 50, "open"));
    assert_eq!(told(post.ready(30, 30)), (b'C', 2, 50, "closed"));
    assert_eq!(link(&mut post, 30, 5_999), (b'C', 1, 1_000, "closed"));
    assert_eq!(link(&mut post, 30, 6_000), (b'C', 2, 50, "closed"));
    assert_eq!((post.state.stop, post.state.closings), (None, 1));
}

#[test]
fn grant_taken_back_between_the_two_samples() {
    let mut post = connected();
    link(&mut post, 25, 6_000);
    post.ready(30, 30);
    // The contactor is open, so the wave stays.
    assert_eq!(link(&mut post, 35, 5_999), (b'B', 2, 50, "open"));
    assert_eq!(told(post.ready(40, 40)), (b'C', 2, 50, "open"));
    link(&mut post, 45, 6_000);
    assert_eq!(told(post.ready(50, 50)), (b'C', 2, 50, "closed"));
}

#[test]
fn samples_under_1000_prove_nothing() {
    let mut post = connected();
    link(&mut post, 25, 6_000);
    post.call(26, Event::Limit(0));
    assert_eq!(told(post.ready(30, 30)), (b'B', 1, 1_000, "open"));
    post.call(35, Event::Limit(32_000));
    assert_eq!(told(post.ready(40, 40)), (b'C', 2, 50, "open"));
    assert_eq!(told(post.ready(50, 50)), (b'C', 2, 50, "closed"));
}

#[test]
fn opening_keeps_the_grant_and_starts_the_pause() {
    let mut post = closed(16_000);
    post.sample(50, 9_000, -12_000);
    let reply = post.sample(60, 9_000, -12_000);
    assert_eq!(told(reply), (b'B', 2, 50, "open"));
    assert_eq!(grant(&post), (16_000, false));
    assert_eq!(told(post.ready(70, 3_050)), (b'C', 2, 50, "open"));
    assert_eq!(told(post.ready(3_060, 3_060)), (b'C', 2, 50, "closed"));
    assert_eq!(post.state.closings, 2);
}

#[test]
fn pause_over_and_no_grant() {
    let mut post = closed(16_000);
    post.sample(50, 9_000, -12_000);
    post.sample(60, 9_000, -12_000);
    assert_eq!(link(&mut post, 65, 5_999), (b'B', 2, 50, "open"));
    assert_eq!(told(post.ready(70, 3_060)), (b'C', 2, 50, "open"));
    assert_eq!(link(&mut post, 3_061, 6_000), (b'C', 2, 50, "open"));
    assert_eq!(told(post.ready(3_070, 3_070)), (b'C', 2, 50, "closed"));
    assert_eq!(post.state.closings, 2);
}

#[test]
fn sample_after_a_stop_is_judged_under_its_1000() {
    let mut post = close(connect(begun_with(1_000, false)), 16_000);
    assert_eq!(link(&mut post, 50, 0), (b'C', 1, 1_000, "closed"));
    assert_eq!(told(post.ready(50, 3_040)), (b'C', 1, 1_000, "closed"));
    let reply = post.call(3_050, Event::Tick);
    assert_eq!(told(reply), (b'C', 1, 1_000, "open"));
    assert_eq!(post.outcome.unwrap().causes, STOPPED);
    // The pause is over. The wave before this call is the opening's 1000.
    assert_eq!(told(post.ready(4_050, 4_050)), (b'C', 2, 50, "open"));
    let conditions = post.outcome.unwrap().conditions;
    assert!(conditions.pause_over && conditions.wave_driven && !conditions.this_proven);
    assert_eq!(link(&mut post, 4_051, 6_000), (b'C', 2, 50, "open"));
    assert_eq!(told(post.ready(4_060, 4_060)), (b'C', 2, 50, "open"));
    let conditions = post.outcome.unwrap().conditions;
    assert!(conditions.granted && conditions.this_proven && !conditions.previous_proven);
    assert_eq!(told(post.ready(4_070, 4_070)), (b'C', 2, 50, "closed"));
    assert_eq!(post.state.closings, 2);
}

#[test]
fn refused_link_calls_between_the_two_samples_leave_the_pair() {
    let mut post = connected();
    link(&mut post, 25, 6_000);
    post.ready(30, 30);
    for (time, granted, refusal) in [
        (35, 80_001, 11),
        (35, u32::MAX, 11),
        (29, 0, 2),
        (MAX_TIME + 1, 0, 3),
    ] {
        let reply = post.call(time, Event::Link(granted));
        assert_eq!((reply.refusal, reply.letter), (refusal, b'B'));
        assert_eq!(grant(&post), (6_000, false));
    }
    assert_eq!(told(post.ready(40, 40)), (b'C', 2, 50, "closed"));
}

#[test]
fn van_in_d_needs_the_grant_too() {
    let mut post = begun(true);
    post.sample(10, 9_000, 9_000);
    post.sample(20, 9_000, 9_000);
    post.sample(30, 3_000, -12_000);
    let reply = post.sample(40, 3_000, -12_000);
    assert_eq!(told(reply), (b'D', 2, 50, "open"));
    link(&mut post, 45, 6_000);
    let reply = post.sample(50, 3_000, -12_000);
    assert_eq!(told(reply), (b'D', 2, 50, "closed"));
    assert_eq!(link(&mut post, 55, 0), (b'D', 1, 1_000, "closed"));
}
