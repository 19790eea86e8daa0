//! Windows, a lent controller to start from, and the bench list up to its closing.

// Not every test file wants all of it.
#![allow(dead_code)]

pub mod latched;
pub mod linked;

use chuldariin_model::*;

pub const MAX_TIME: u64 = 1_000_000_000_000;
/// Duty 533 allows a line so much; the next mA is an over-run.
pub const ALLOWED: u32 = 35_178;
pub const TOO_MUCH: u32 = 35_179;
/// The largest current of a line that a measure may bring.
pub const LARGEST: u32 = 200_000;
pub const NO_FAULT: [bool; 5] = [false; 5];
pub const OVER_CURRENT: [bool; 5] = [false, true, false, false, false];

/// A window of two levels, half and half.
pub fn window(high: i32, low: i32) -> Vec<i32> {
    let mut readings = vec![high; 128];
    readings.extend(vec![low; 128]);
    readings
}

/// Seven readings on each spot, the spots 603 mV apart: none has eight supporters.
pub fn unsupported() -> Vec<i32> {
    (0..256).map(|n| -14_000 + 603 * (n / 7)).collect()
}

/// A closed controller at time 10,000, all in order, its van in C.
pub fn charging() -> State {
    State {
        rated: 32_000,
        pause: 3_000,
        ventilation: false,
        digital: false,
        limit: 32_000,
        grant: 0,
        lines: [0; 3],
        wave: 533,
        closed: true,
        settled: Some(Band::C),
        faults: [false; 5],
        order: None,
        last: 10_000,
        sound: Some(10_000),
        opening: None,
        overrun: None,
        stop: None,
        previous: Some(verdict(6_000, -12_000, driven(false, 533), false)),
        closings: 1,
    }
}

/// A controller from begin on, with the outcome of its last call.
pub struct Post {
    pub state: State,
    pub outcome: Option<Outcome>,
}

impl Post {
    pub fn begin(pause: u64) -> Post {
        let (state, reply) = begin(&Begin {
            time: 0,
            rated: 32_000,
            pause,
            ventilation: false,
            digital: false,
        })
        .unwrap();
        assert_eq!(reply, Reply::of(&state, 0));
        Post {
            state,
            outcome: None,
        }
    }

    pub fn call(&mut self, time: u64, event: Event) -> Reply {
        let before = self.state;
        let (state, outcome) = self.state.call(time, &event);
        if outcome.reply.refusal != 0 {
            assert_eq!(state, before);
            assert_eq!(outcome.reply, Reply::of(&before, outcome.reply.refusal));
        }
        self.state = state;
        self.outcome = Some(outcome);
        outcome.reply
    }

    pub fn sample(&mut self, time: u64, high: i32, low: i32) -> Reply {
        self.call(time, Event::Sample(&window(high, low)))
    }

    /// C samples every 10 from one time to another, both included.
    pub fn ready(&mut self, from: u64, to: u64) -> Reply {
        let mut reply = Reply::alone(99);
        for time in (from..=to).step_by(10) {
            reply = self.sample(time, 6_000, -12_000);
        }
        reply
    }

    /// The bench list up to the first closing at 40.
    pub fn closed() -> Post {
        Post::closed_with(0)
    }

    /// The same with a pause of its own.
    pub fn closed_with(pause: u64) -> Post {
        let mut post = Post::begin(pause);
        post.call(0, Event::Limit(32_000));
        assert_eq!(post.sample(10, 9_000, 9_000).letter, b'U');
        let reply = post.sample(20, 9_000, 9_000);
        assert_eq!((reply.letter, reply.digit, reply.wave), (b'B', 2, 533));
        assert!(!post.sample(30, 6_000, -12_000).closed);
        let reply = post.sample(40, 6_000, -12_000);
        assert_eq!((reply.letter, reply.digit, reply.wave), (b'C', 2, 533));
        assert_eq!((reply.closed, reply.closings), (true, 1));
        assert!(post.outcome.unwrap().closing && post.outcome.unwrap().conditions.all());
        post
    }

    /// The bench list up to the opening at 60.
    pub fn opened(pause: u64) -> Post {
        let mut post = Post::closed_with(pause);
        assert!(post.sample(50, 9_000, -12_000).closed);
        let reply = post.sample(60, 9_000, -12_000);
        assert_eq!((reply.closed, reply.letter, reply.digit), (false, b'B', 2));
        let causes = post.outcome.unwrap().causes;
        assert_eq!(causes, [true, false, false, false, false]);
        post
    }
}
