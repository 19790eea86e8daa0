//! Request f of document 02: the fault told, and posts in which faults can meet.

use super::linked::{closed, measured};
use super::{Post, TOO_MUCH};
use chuldariin_model::*;

/// An over-run from 50 on is 5,000 old.
pub const FAULT_2_AT: u64 = 5_050;

/// The faults that a call can bring, in each of their orders.
pub const CALLED: [[u32; 3]; 6] = [
    [3, 4, 5],
    [3, 5, 4],
    [4, 3, 5],
    [4, 5, 3],
    [5, 3, 4],
    [5, 4, 3],
];

/// The fault in a reply, which must leave nothing open.
pub fn told(reply: Reply) -> u32 {
    let told = reply.told.unwrap();
    for fault in 0..=6 {
        assert_eq!(reply.may_tell(fault), fault == told);
    }
    told
}

/// A reply that leaves open which of its latched faults is told.
pub fn told_open(reply: Reply) {
    assert_eq!(reply.told, None);
    assert_eq!(reply.may_tell(0), reply.faults == [false; 5]);
    for fault in 1..=5 {
        assert_eq!(reply.may_tell(fault), reply.faults[fault as usize - 1]);
    }
    assert!(!reply.may_tell(6));
}

/// The fault told by an accepted call.
pub fn after(post: &mut Post, time: u64, event: Event) -> u32 {
    let reply = post.call(time, event);
    assert_eq!(reply.refusal, 0, "{event:?}");
    assert_eq!(reply.letter == b'F', reply.told != Some(0));
    told(reply)
}

/// Fault calls of these kinds, all at one time. Each must tell this fault.
pub fn fault_calls(post: &mut Post, time: u64, kinds: &[u32], first: u32) {
    for &kind in kinds {
        assert_eq!(after(post, time, Event::Fault(kind)), first, "{kinds:?}");
    }
}

/// The order that a post keeps.
pub fn order(post: &Post) -> [u32; 5] {
    post.state.order.unwrap().places()
}

/// A closed plain post with an over-run from 50 on and ready samples up to this time.
pub fn over_running(to: u64) -> Post {
    let mut post = Post::closed_with(3_000);
    assert_eq!(measured(&mut post, 50, TOO_MUCH), Some(50));
    assert!(post.ready(60, to).closed);
    post
}

/// The same of a digital post.
pub fn digital_over_running(to: u64) -> Post {
    let mut post = closed(16_000);
    assert_eq!(measured(&mut post, 50, 17_601), Some(50));
    assert!(post.ready(60, to).closed);
    post
}

/// A plain post and a digital one.
pub fn both_over_running(to: u64) -> [Post; 2] {
    [over_running(to), digital_over_running(to)]
}
