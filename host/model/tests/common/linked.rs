//! Request e of document 02: a digital post, its link calls and its grant.
//!
//! Rated and limit are 32,000 and the pause is 3,000 unless a test changes them.
//! The least of grant, rated and limit may be passed by a tenth: 16,000 allows
//! 17,600.

use super::{charging, Post};
use chuldariin_model::*;

pub const NO_DIODE: [bool; 5] = [true, false, false, false, false];
pub const UNSOUND: [bool; 5] = [true, false, false, false, false];
pub const STOPPED: [bool; 5] = [false, false, false, true, false];

/// A digital post from begin at 0 on, with its limit.
pub fn begun(ventilation: bool) -> Post {
    begun_with(3_000, ventilation)
}

/// The same with a pause of its own.
pub fn begun_with(pause: u64, ventilation: bool) -> Post {
    let (state, _) = begin(&Begin {
        time: 0,
        rated: 32_000,
        pause,
        ventilation,
        digital: true,
    })
    .unwrap();
    let outcome = None;
    let mut post = Post { state, outcome };
    assert_eq!(post.call(0, Event::Limit(32_000)).refusal, 0);
    post
}

/// The post with two B samples, B2 at 20.
pub fn connected() -> Post {
    connect(begun(false))
}

/// These two samples of a post that has just begun.
pub fn connect(mut post: Post) -> Post {
    assert_eq!(
        told(post.sample(10, 9_000, 9_000)),
        (b'U', 0, 1_000, "open")
    );
    assert_eq!(told(post.sample(20, 9_000, 9_000)), (b'B', 2, 50, "open"));
    post
}

/// The same with this grant at 25 and two C samples, closed at 40.
pub fn closed(granted: u32) -> Post {
    close(connected(), granted)
}

/// This grant and these two samples of a post in B2.
pub fn close(mut post: Post, granted: u32) -> Post {
    assert_eq!(link(&mut post, 25, granted), (b'B', 2, 50, "open"));
    assert_eq!(told(post.ready(30, 30)), (b'B', 2, 50, "open"));
    assert_eq!(told(post.ready(40, 40)), (b'C', 2, 50, "closed"));
    assert_eq!(post.state.closings, 1);
    post
}

/// A lent digital controller at 10,000, closed and all in order, its van in C.
pub fn digital(grant: u32) -> State {
    State {
        digital: true,
        grant,
        wave: 50,
        ..charging()
    }
}

/// Letter, digit, wave and contactor of an accepted call.
pub fn told(reply: Reply) -> (u8, u8, u32, &'static str) {
    assert_eq!(reply.refusal, 0);
    let contactor = if reply.closed { "closed" } else { "open" };
    (reply.letter, reply.digit, reply.wave, contactor)
}

/// The same of a link call.
pub fn link(post: &mut Post, time: u64, granted: u32) -> (u8, u8, u32, &'static str) {
    told(post.call(time, Event::Link(granted)))
}

/// The grant after the last call, and whether settled A has just set it to 0.
pub fn grant(post: &Post) -> (u32, bool) {
    (post.state.grant, post.outcome.unwrap().grant_reset)
}

/// The over-run after a measure of one line.
pub fn measured(post: &mut Post, time: u64, current: u32) -> Option<u64> {
    assert_eq!(post.call(time, Event::measure_one(current)).refusal, 0);
    post.state.overrun
}
