//! Request e of document 02, a digital post: the mark and the wave.

mod common;

use chuldariin_model::*;
use common::linked::{closed, connected, digital, told, NO_DIODE};
use common::{MAX_TIME, NO_FAULT};

#[test]
fn begin_stores_the_mark_and_a_grant_of_0() {
    let mut asked = Begin {
        time: 7,
        rated: 32_000,
        pause: 0,
        ventilation: true,
        digital: true,
    };
    let (state, reply) = begin(&asked).unwrap();
    assert_eq!((state.digital, state.grant, state.limit), (true, 0, 0));
    assert_eq!((state.pause, state.last), (10_000, 7));
    assert_eq!(told(reply), (b'U', 0, 1_000, "open"));
    asked.digital = false;
    let (plain, same_reply) = begin(&asked).unwrap();
    assert_eq!((plain.digital, plain.grant), (false, 0));
    assert_eq!(reply, same_reply);
    asked.digital = true;
    asked.rated = 5_999;
    assert_eq!(begin(&asked).map(|_| ()), Err(1));
    asked.time = MAX_TIME + 1;
    assert_eq!(begin(&asked).map(|_| ()), Err(3));
}

#[test]
fn driven_wave_of_either_post() {
    assert!(driven(true, 50) && !driven(false, 50));
    for wave in [100, 533, 960] {
        assert!(driven(false, wave) && driven(true, wave), "{wave}");
    }
    for wave in [0, 1, 30, 49, 51, 70, 99, 961, 1_000, u32::MAX] {
        assert!(!driven(false, wave) && !driven(true, wave), "{wave}");
    }
}

#[test]
fn wave_is_50_for_every_current_that_has_a_duty() {
    let mut post = connected();
    for (limit, digit, wave) in [
        (6_000, 2, 50),
        (5_999, 1, 1_000),
        (31_980, 2, 50),
        (0, 1, 1_000),
        (80_000, 2, 50),
    ] {
        let reply = post.call(30, Event::Limit(limit));
        assert_eq!(told(reply), (b'B', digit, wave, "open"), "{limit}");
    }
}

#[test]
fn settled_state_and_faults_rule_the_wave_as_in_a_plain_post() {
    for (settled, ventilation, letter, digit, wave) in [
        (None, true, b'U', 0, 1_000),
        (Some(Band::A), true, b'A', 1, 1_000),
        (Some(Band::B), false, b'B', 2, 50),
        (Some(Band::C), false, b'C', 2, 50),
        (Some(Band::D), false, b'D', 1, 1_000),
        (Some(Band::D), true, b'D', 2, 50),
        (Some(Band::E), true, b'E', 0, 1_000),
    ] {
        let mut state = State {
            closed: false,
            settled,
            ventilation,
            ..digital(0)
        };
        let reply = state.call(10_000, &Event::Tick).1.reply;
        assert_eq!(told(reply), (letter, digit, wave, "open"));
        state.faults[2] = true;
        let reply = state.call(10_000, &Event::Tick).1.reply;
        assert_eq!(told(reply), (b'F', 0, 0, "open"));
    }
}

#[test]
fn diode_is_judged_under_50() {
    // The sample at 20 came under wave 1000, the one at 30 is the first under 50.
    let mut post = connected();
    assert_eq!(post.sample(30, 9_000, 9_000).faults, NO_FAULT);
    let reply = post.sample(40, 9_000, 9_000);
    assert_eq!(reply.faults, NO_DIODE);
    assert_eq!(told(reply), (b'F', 0, 0, "open"));
    let mut post = closed(6_000);
    for (time, low) in [(50, -11_000), (60, -13_000), (70, -10_999)] {
        assert_eq!(told(post.sample(time, 6_000, low)), (b'C', 2, 50, "closed"));
    }
    let reply = post.sample(80, 6_000, -13_001);
    assert_eq!((reply.faults, reply.closed), (NO_DIODE, false));
    let causes = post.outcome.unwrap().causes;
    assert_eq!(causes, [true, false, false, false, true]);
}
