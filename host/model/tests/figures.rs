//! The paper's bench figures, field faults and refusals.
//!
//! Begin's pause is 0 unless a test hangs on the pause; such a test names its own.
//! Measures are old ones of one current; those of three are in `lines.rs`.

mod common;

use chuldariin_model::*;
use common::{unsupported, Post, MAX_TIME};

// ---- Bench figures ----

#[test]
fn duty_for_an_available_current() {
    for (available, duty) in [
        (6_000, 100),
        (6_059, 100),
        (6_060, 101),
        (32_000, 533),
        (51_000, 850),
        (52_749, 850),
        (52_750, 851),
        (80_000, 960),
        (u32::MAX, 960),
    ] {
        assert_eq!(duty_for(available), Ok(duty), "{available}");
    }
    assert_eq!(reading(533), Ok(Reading::Current(31_980)));
    assert_eq!(duty_for(5_999), Err(10));
}

#[test]
fn reading_of_a_duty() {
    use Reading::*;
    for (duty, read) in [
        (0, NoCharging),
        (29, NoCharging),
        (30, DigitalOnly),
        (70, DigitalOnly),
        (71, NoCharging),
        (79, NoCharging),
        (80, Current(6_000)),
        (99, Current(6_000)),
        (100, Current(6_000)),
        (850, Current(51_000)),
        (851, Current(52_750)),
        (960, Current(80_000)),
        (961, Current(80_000)),
        (970, Current(80_000)),
        (971, NoCharging),
        (1_000, NoCharging),
    ] {
        assert_eq!(reading(duty), Ok(read), "{duty}");
    }
    assert_eq!(reading(1_001), Err(9));
    assert_eq!(reading(u32::MAX), Err(9));
}

#[test]
fn bands_and_their_ends() {
    use Band::*;
    for (low_end, high_end, there) in [
        (11_000, 13_000, A),
        (8_000, 10_000, B),
        (5_000, 7_000, C),
        (2_000, 4_000, D),
        (-1_000, 1_000, E),
    ] {
        assert_eq!(band(low_end - 1), None);
        assert_eq!(band(low_end), Some(there));
        assert_eq!(band(high_end), Some(there));
        assert_eq!(band(high_end + 1), None);
    }
    assert_eq!(band(7_000), Some(C));
    assert_eq!(band(7_001), None);
}

#[test]
fn sound_proven_and_diode_bad() {
    for (high, sound) in [(7_499, true), (1_501, true), (7_500, false), (1_500, false)] {
        assert_eq!(
            verdict(high, -12_000, driven(false, 533), false).sound,
            sound,
            "{high}"
        );
        assert_eq!(
            verdict(high, high, driven(false, 1_000), false).sound,
            sound,
            "{high}"
        );
        assert_eq!(
            verdict(high, high, driven(false, 0), false).sound,
            sound,
            "{high}"
        );
        assert!(!verdict(high, -10_999, driven(false, 533), false).sound);
    }
    for (low, good) in [
        (-13_001, false),
        (-13_000, true),
        (-11_000, true),
        (-10_999, false),
    ] {
        let there = verdict(6_000, low, driven(false, 533), false);
        assert_eq!(
            (there.sound, there.proven, there.diode_bad),
            (good, good, !good)
        );
    }
    assert!(!verdict(3_000, -12_000, driven(false, 533), false).proven);
    assert!(verdict(3_000, -12_000, driven(false, 533), true).proven);
    assert!(!verdict(6_000, -12_000, driven(false, 1_000), true).proven);
    for (high, bad) in [
        (12_000, false),
        (9_000, true),
        (3_000, true),
        (0, false),
        (7_200, false),
    ] {
        assert_eq!(
            verdict(high, high.min(0), driven(false, 100), false).diode_bad,
            bad,
            "{high}"
        );
        assert!(!verdict(high, high, driven(false, 1_000), false).diode_bad);
    }
}

#[test]
fn over_run() {
    let mut post = Post::closed();
    post.call(50, Event::measure_one(35_178));
    assert_eq!(post.state.overrun, None);
    post.ready(50, 990);
    post.call(1_000, Event::measure_one(35_179));
    assert_eq!(post.state.overrun, Some(1_000));
    post.ready(1_000, 5_990);
    post.call(5_990, Event::measure_one(200_000));
    assert_eq!(post.state.overrun, Some(1_000));
    let reply = post.call(5_999, Event::Tick);
    assert_eq!((reply.faults, reply.closed), ([false; 5], true));
    let reply = post.call(6_000, Event::Tick);
    assert_eq!(reply.faults, [false, true, false, false, false]);
    assert_eq!((reply.letter, reply.digit, reply.wave), (b'F', 0, 0));
    assert!(!reply.closed && reply.may_tell(2) && !reply.may_tell(0));
    let outcome = post.outcome.unwrap();
    assert_eq!(outcome.causes, [false, false, false, false, true]);
    assert_eq!(outcome.latched, [false, true, false, false, false]);
}

#[test]
fn over_run_that_ends_in_time() {
    let mut post = Post::closed();
    post.call(50, Event::measure_one(35_179));
    post.ready(50, 5_040);
    let reply = post.call(5_050, Event::measure_one(35_178));
    assert_eq!((reply.faults, post.state.overrun), ([false; 5], None));
}

#[test]
fn bench_list_to_the_tick_at_121() {
    let mut post = Post::closed();
    assert!(post.sample(50, 9_000, -12_000).closed);
    assert!(post.call(120, Event::Tick).closed);
    let reply = post.call(121, Event::Tick);
    assert_eq!((reply.closed, reply.closings), (false, 1));
    let causes = post.outcome.unwrap().causes;
    assert_eq!(causes, [false, true, false, false, false]);
}

#[test]
fn bench_list_with_two_b_samples() {
    for (given, stored, closing) in [(3_000, 3_000, 3_060), (0, 10_000, 10_060)] {
        let mut post = Post::opened(given);
        assert_eq!(post.state.pause, stored);
        let reply = post.ready(70, closing - 10);
        assert_eq!((reply.closed, reply.closings), (false, 1), "pause {given}");
        let reply = post.ready(closing, closing);
        assert_eq!((reply.closed, reply.closings), (true, 2), "pause {given}");
    }
}

#[test]
fn bench_list_with_a_stop() {
    let mut post = Post::closed();
    post.ready(50, 5_000);
    let reply = post.call(5_000, Event::Limit(0));
    assert_eq!((reply.wave, reply.digit, reply.closed), (1_000, 1, true));
    assert!(post.ready(5_010, 7_990).closed);
    assert!(post.call(7_999, Event::Tick).closed);
    assert!(!post.ready(8_000, 8_000).closed);
    let causes = post.outcome.unwrap().causes;
    assert_eq!(causes, [false, false, false, true, false]);
}

// ---- Faults seen in the field ----

#[test]
fn just_above_51_amps() {
    assert_eq!(duty_for(52_000), Ok(850));
    assert_eq!(reading(848), Ok(Reading::Current(50_880)));
}

#[test]
fn no_opening_at_7200() {
    let mut post = Post::closed();
    for time in (50..=5_000).step_by(10) {
        let reply = post.sample(time, 7_200, -12_000);
        assert_eq!((reply.closed, reply.letter), (true, b'C'));
    }
}

#[test]
fn diode_sample_from_before_the_opening() {
    let mut post = Post::closed();
    post.sample(50, 6_000, -5_000);
    assert!(post.state.previous.unwrap().diode_bad);
    assert!(!post.call(121, Event::Tick).closed);
    assert_eq!(post.sample(130, 6_000, -5_000).faults, [false; 5]);
    let reply = post.sample(140, 6_000, -5_000);
    assert_eq!(reply.faults, [true, false, false, false, false]);
    assert_eq!((post.state.settled, post.state.previous), (None, None));
}

#[test]
fn repeated_limit_of_0() {
    let mut post = Post::closed();
    post.ready(50, 5_000);
    for time in (5_000..8_000).step_by(50) {
        assert!(post.call(time, Event::Limit(0)).closed);
        assert!(post.ready(time, time + 40).closed);
    }
    assert!(!post.call(8_000, Event::Limit(0)).closed);
}

#[test]
fn refused_call_moves_no_clock() {
    let mut post = Post::begin(0);
    assert_eq!(post.call(100, Event::Limit(80_001)).refusal, 13);
    assert_eq!(post.call(MAX_TIME + 1, Event::Tick).refusal, 3);
    assert_eq!(post.call(50, Event::Tick).refusal, 0);
    assert_eq!(post.call(49, Event::Tick).refusal, 2);
    assert_eq!(post.call(50, Event::Tick).refusal, 0);
}

// ---- Windows ----

#[test]
fn levels_need_eight_supporters() {
    let mut spread = vec![0; 256];
    spread[..7].fill(9_000);
    assert_eq!(levels(&spread), Ok((0, 0)));
    spread[7] = 8_800;
    assert_eq!(levels(&spread), Ok((9_000, 0)));
    spread[7] = 8_799;
    assert_eq!(levels(&spread), Ok((0, 0)));
    spread[8..16].fill(-15_000);
    assert_eq!(levels(&spread), Ok((0, -15_000)));
}

#[test]
fn window_refusals() {
    assert_eq!(levels(&[0; 255]), Err(4));
    assert_eq!(levels(&[0; 256]), Ok((0, 0)));
    assert_eq!(levels(&[0; 1_024]), Ok((0, 0)));
    assert_eq!(levels(&[0; 1_025]), Err(4));
    assert_eq!(levels(&[]), Err(4));
    for (reading, expected) in [
        (15_000, Ok((0, 0))),
        (-15_000, Ok((0, 0))),
        (15_001, Err(5)),
        (-15_001, Err(5)),
        (i32::MIN, Err(5)),
        (i32::MAX, Err(5)),
    ] {
        let mut there = vec![0; 256];
        there[255] = reading;
        assert_eq!(levels(&there), expected);
    }
    assert_eq!(levels(&unsupported()), Err(6));
    let mut eighth = unsupported();
    eighth[255] = eighth[0] + 200;
    assert_eq!(levels(&eighth), Ok((-14_000 + 200, -14_000)));
}

// ---- Refusals and their order ----

fn asked(time: u64, rated: u32, pause: u64) -> Result<(State, Reply), u8> {
    begin(&Begin {
        time,
        rated,
        pause,
        ventilation: true,
        digital: false,
    })
}

#[test]
fn begin_accepted() {
    for (rated, pause, kept) in [
        (6_000, 0, 10_000),
        (80_000, 1_000, 1_000),
        (32_000, 3_000, 3_000),
        (32_000, 60_000, 60_000),
    ] {
        let (state, reply) = asked(MAX_TIME, rated, pause).unwrap();
        assert_eq!(
            (state.rated, state.pause, state.last),
            (rated, kept, MAX_TIME)
        );
        assert!(state.ventilation && !state.closed);
        assert_eq!((state.limit, state.wave, state.settled), (0, 1_000, None));
        assert_eq!((state.lines, reply.lines), ([0; 3], [0; 3]));
        assert_eq!((reply.refusal, reply.letter, reply.digit), (0, b'U', 0));
        assert_eq!(
            (reply.wave, reply.closed, reply.closings),
            (1_000, false, 0)
        );
        assert!(reply.may_tell(0) && !reply.may_tell(1));
        // Every pause that begin stores is taken from a lent controller, and 0 is not.
        assert_eq!(refusal_of_call(&state, MAX_TIME, &Event::Tick), 0);
        let lent = State { pause: 0, ..state };
        assert_eq!(refusal_of_call(&lent, MAX_TIME, &Event::Tick), 1);
    }
}

#[test]
fn begin_refused() {
    for (rated, pause) in [
        (5_999, 0),
        (80_001, 0),
        (32_000, 1),
        (32_000, 999),
        (32_000, 60_001),
        (32_000, u64::MAX),
    ] {
        assert_eq!(asked(0, rated, pause), Err(1));
        assert_eq!(asked(MAX_TIME + 1, rated, pause), Err(3));
    }
    assert_eq!(asked(u64::MAX, 32_000, 0), Err(3));
    let alone = Reply::alone(3);
    assert_eq!((alone.letter, alone.lines), (0, [0; 3]));
}

/// Every alteration that refusal 1 names.
const ALTERED: [fn(&mut State); 18] = [
    |s| s.wave = 1,
    |s| s.wave = 99,
    |s| s.wave = 961,
    |s| s.wave = 999,
    |s| s.wave = 1_001,
    |s| s.wave = u32::MAX,
    |s| s.limit = 80_001,
    |s| s.rated = 5_999,
    |s| s.rated = 80_001,
    |s| s.pause = 0,
    |s| s.pause = 999,
    |s| s.pause = 60_001,
    |s| s.sound = Some(s.last + 1),
    |s| s.opening = Some(s.last + 1),
    |s| s.overrun = Some(s.last + 1),
    |s| s.stop = Some(u64::MAX),
    |s| s.closings = 1_000_000_002,
    |s| s.closings = u32::MAX,
];

#[test]
fn altered_controllers_are_refused_1() {
    for alter in ALTERED {
        let mut post = Post::closed();
        alter(&mut post.state);
        // 1 comes before 4, 7 and 8, and after 2 and 3.
        assert_eq!(post.call(40, Event::Tick).refusal, 1);
        assert_eq!(post.call(40, Event::Clear).refusal, 1);
        assert_eq!(post.call(40, Event::Sample(&[])).refusal, 1);
        assert_eq!(post.call(40, Event::measure_one(u32::MAX)).refusal, 1);
        assert_eq!(post.call(40, Event::Fault(0)).refusal, 1);
        assert_eq!(post.call(39, Event::Tick).refusal, 2);
        assert_eq!(post.call(MAX_TIME + 1, Event::Tick).refusal, 3);
    }
}

#[test]
fn altered_controllers_at_the_edge_are_accepted() {
    let mut edge = Post::closed().state;
    edge.closings = 1_000_000_001;
    edge.sound = Some(edge.last);
    edge.opening = Some(edge.last);
    edge.overrun = Some(edge.last);
    edge.stop = Some(edge.last);
    for wave in [0, 100, 960, 1_000] {
        edge.wave = wave;
        assert_eq!(edge.call(40, &Event::Tick).1.reply.refusal, 0);
    }
    for pause in [1_000, 3_000, 10_000, 60_000] {
        edge.pause = pause;
        assert_eq!(edge.call(40, &Event::Tick).1.reply.refusal, 0, "{pause}");
    }
}

#[test]
fn refusals_2_and_3() {
    let mut post = Post::closed();
    assert_eq!(post.call(39, Event::Sample(&[])).refusal, 2);
    assert_eq!(post.call(39, Event::Limit(80_001)).refusal, 2);
    assert_eq!(post.call(MAX_TIME + 1, Event::Sample(&[])).refusal, 3);
    assert_eq!(post.call(u64::MAX, Event::Fault(9)).refusal, 3);
    assert_eq!(post.call(MAX_TIME, Event::Tick).refusal, 0);
    // A last time above the largest: 3 comes before 2.
    post.state.last = u64::MAX;
    assert_eq!(post.call(MAX_TIME, Event::Tick).refusal, 2);
    assert_eq!(post.call(MAX_TIME + 1, Event::Tick).refusal, 3);
}

#[test]
fn refusals_4_5_and_6() {
    let mut post = Post::closed();
    assert_eq!(post.call(50, Event::Sample(&[0; 255])).refusal, 4);
    assert_eq!(post.call(50, Event::Sample(&[15_001; 255])).refusal, 4);
    assert_eq!(post.call(50, Event::Sample(&[15_001; 256])).refusal, 5);
    let mut both = unsupported();
    assert_eq!(post.call(50, Event::Sample(&both)).refusal, 6);
    both[255] = -15_001;
    assert_eq!(post.call(50, Event::Sample(&both)).refusal, 5);
}

#[test]
fn refusals_7_8_and_13() {
    let mut post = Post::closed();
    assert_eq!(post.call(50, Event::Limit(80_000)).refusal, 0);
    assert_eq!(post.call(50, Event::Limit(80_001)).refusal, 13);
    assert_eq!(post.call(50, Event::measure_one(200_000)).refusal, 0);
    assert_eq!(post.call(50, Event::measure_one(200_001)).refusal, 7);
    for kind in [0, 1, 2, 6, u32::MAX] {
        assert_eq!(post.call(50, Event::Fault(kind)).refusal, 8);
    }
    for kind in [3, 4, 5] {
        let reply = post.call(50, Event::Fault(kind));
        assert!(reply.refusal == 0 && reply.faults[kind as usize - 1]);
        assert!(reply.may_tell(3));
    }
    assert_eq!(post.call(50, Event::Clear).faults, [false; 5]);
}

#[test]
fn refusals_9_and_10_stand_alone() {
    assert_eq!(reading(1_000), Ok(Reading::NoCharging));
    assert_eq!(reading(1_001), Err(9));
    assert_eq!(duty_for(6_000), Ok(100));
    assert_eq!(duty_for(5_999), Err(10));
    assert_eq!(duty_for(0), Err(10));
}
