//! Request g of document 02: a limit above 80,000 is refused 13, in the place of 7, and
//! 7 remains for measures.
//!
//! Lent controllers are at 10,000. Rated and limit are 32,000 unless a test changes them.

mod common;

use chuldariin_model::*;
use common::latched::{both_over_running, fault_calls, told_open, FAULT_2_AT};
use common::linked::{closed, digital, told, STOPPED};
use common::{charging, unsupported, Post, LARGEST, MAX_TIME, NO_FAULT, OVER_CURRENT};

/// Limits, grants and rated currents that are too large, some of them in a measure's range.
const ABOVE: [u32; 6] = [80_001, 100_000, 200_000, 200_001, 1_000_000_000, u32::MAX];

/// Times with the number that a controller at 10,000 has for them, if any.
const TIMES: [(u64, Option<u8>); 6] = [
    (0, Some(2)),
    (9_999, Some(2)),
    (10_000, None),
    (MAX_TIME, None),
    (MAX_TIME + 1, Some(3)),
    (u64::MAX, Some(3)),
];

/// Every field that refusal 1 names, brought out of range.
const ALTERED: [fn(&mut State); 14] = [
    |s| s.wave = 1,
    |s| s.wave = if s.digital { 533 } else { 50 },
    |s| s.limit = 80_001,
    |s| s.limit = u32::MAX,
    |s| s.grant = 80_001,
    |s| s.rated = 5_999,
    |s| s.rated = 80_001,
    |s| s.pause = 0,
    |s| s.pause = 60_001,
    |s| s.sound = Some(s.last + 1),
    |s| s.opening = Some(s.last + 1),
    |s| s.overrun = Some(s.last + 1),
    |s| s.stop = Some(s.last + 1),
    |s| s.closings = 1_000_000_002,
];

/// A plain controller and a digital one, closed and charging.
fn both() -> [State; 2] {
    [charging(), digital(16_000)]
}

/// The same in many ways, none of which refusal 1 names.
fn lent() -> Vec<State> {
    let ways: [fn(&mut State); 8] = [
        |_| {},
        |s| s.closed = false,
        |s| s.rated = 6_000,
        |s| s.limit = 80_000,
        |s| (s.limit, s.wave, s.stop) = (0, 1_000, Some(7_000)),
        |s| s.settled = Some(Band::A),
        |s| s.overrun = Some(5_000),
        |s| (s.wave, s.faults) = (0, OVER_CURRENT),
    ];
    changed(&ways)
}

/// Both controllers with each of these changes.
fn changed(changes: &[fn(&mut State)]) -> Vec<State> {
    let with = |change: &fn(&mut State)| {
        both().map(|mut state| {
            change(&mut state);
            state
        })
    };
    changes.iter().flat_map(with).collect()
}

/// A call that must be refused, with nothing changed and the reply as lent.
fn refused(state: &State, time: u64, event: Event, refusal: u8) {
    let (same, outcome) = state.call(time, &event);
    assert_eq!(outcome.reply.refusal, refusal, "{event:?} at {time}");
    assert_eq!(outcome, Outcome::without_steps(Reply::of(state, refusal)));
    assert_eq!(refusal_of_call(state, time, &event), refusal);
    assert_eq!(same, *state);
}

/// The controller after a call that must be accepted.
fn accepted(state: &State, event: Event) -> State {
    let (next, outcome) = state.call(10_000, &event);
    assert_eq!(outcome.reply.refusal, 0, "{event:?}");
    assert_eq!(refusal_of_call(state, 10_000, &event), 0);
    next
}

/// A call whose own number comes after those of its time.
fn after_its_time(state: &State, event: Event, refusal: u8) {
    for (time, number) in TIMES {
        refused(state, time, event, number.unwrap_or(refusal));
    }
}

/// The same of every limit that is too large.
fn limits_after_their_time(state: &State, refusal: u8) {
    for limit in ABOVE {
        after_its_time(state, Event::Limit(limit), refusal);
    }
}

// ---- Refusal 13 and its place ----

#[test]
fn limit_above_80000_is_refused_13_after_3_and_2() {
    for state in lent() {
        limits_after_their_time(&state, 13);
    }
}

#[test]
fn limit_above_80000_is_refused_13_after_1() {
    for state in changed(&ALTERED) {
        limits_after_their_time(&state, 1);
    }
}

#[test]
fn limit_to_a_last_time_above_the_largest_is_refused_2_or_3() {
    for state in changed(&ALTERED) {
        let last = u64::MAX;
        let late = State { last, ..state };
        refused(&late, MAX_TIME, Event::Limit(80_001), 2);
        refused(&late, MAX_TIME + 1, Event::Limit(80_001), 3);
        refused(&late, u64::MAX, Event::Limit(80_001), 3);
    }
}

/// Limits in range, which must be stored.
fn limits_are_stored(state: &State) {
    for limit in [0, 5_999, 6_000, 31_999, 32_000, 32_001, 79_999, 80_000] {
        assert_eq!(accepted(state, Event::Limit(limit)).limit, limit);
    }
}

#[test]
fn limit_up_to_80000_is_stored() {
    for state in lent() {
        limits_are_stored(&state);
    }
}

// ---- What stays ----

/// Calls on an altered controller, also limits that would bring it in range.
fn any_call_is_refused_1(state: &State) {
    for event in [
        Event::Limit(0),
        Event::Limit(32_000),
        Event::Limit(80_000),
        Event::Measure([0; 3]),
        Event::Measure([LARGEST + 1; 3]),
        Event::Link(6_000),
        Event::Link(80_001),
        Event::Sample(&[]),
        Event::Fault(13),
        Event::Clear,
        Event::Tick,
    ] {
        after_its_time(state, event, 1);
    }
}

#[test]
fn lent_controller_out_of_range_is_refused_1() {
    for state in changed(&ALTERED) {
        any_call_is_refused_1(&state);
    }
}

/// The numbers 4 to 8, which are those of other calls.
fn other_calls_keep_their_numbers(state: &State) {
    let spread = unsupported();
    for (event, refusal) in [
        (Event::Sample(&[]), 4),
        (Event::Sample(&[15_001; 256]), 5),
        (Event::Sample(&[80_001; 256]), 5),
        (Event::Sample(&spread), 6),
        (Event::measure_one(LARGEST + 1), 7),
        (Event::measure_one(u32::MAX), 7),
        (Event::Measure([80_001, LARGEST + 1, 0]), 7),
        (Event::Measure([0, 80_001, LARGEST + 1]), 7),
        (Event::Fault(2), 8),
        (Event::Fault(7), 8),
        (Event::Fault(13), 8),
        (Event::Fault(80_001), 8),
    ] {
        after_its_time(state, event, refusal);
    }
}

#[test]
fn numbers_4_to_8_stay() {
    for state in lent() {
        other_calls_keep_their_numbers(&state);
    }
}

/// Measures in range, which must be kept.
fn measures_are_kept(state: &State) {
    for lines in [
        [80_000, 80_001, 100_000],
        [80_001, 0, 0],
        [0, LARGEST, 80_001],
        [LARGEST; 3],
    ] {
        assert_eq!(accepted(state, Event::Measure(lines)).lines, lines);
    }
}

#[test]
fn measure_from_80001_to_200000_is_kept() {
    for state in lent() {
        measures_are_kept(&state);
    }
}

#[test]
fn grant_above_80000_keeps_11_and_12() {
    let [plain, digital] = both();
    for granted in ABOVE {
        after_its_time(&plain, Event::Link(granted), 12);
        after_its_time(&digital, Event::Link(granted), 11);
    }
    after_its_time(&plain, Event::Link(80_000), 12);
    assert_eq!(accepted(&digital, Event::Link(80_000)).grant, 80_000);
}

/// Begin with this rated current.
fn begun(time: u64, rated: u32, digital: bool) -> Result<(State, Reply), u8> {
    begin(&Begin {
        time,
        rated,
        pause: 3_000,
        ventilation: false,
        digital,
    })
}

#[test]
fn begin_keeps_1_and_3() {
    for rated in ABOVE {
        assert_eq!(begun(MAX_TIME, rated, false), Err(1));
        assert_eq!(begun(MAX_TIME, rated, true), Err(1));
        assert_eq!(begun(MAX_TIME + 1, rated, false), Err(3));
        assert_eq!(begun(MAX_TIME + 1, rated, true), Err(3));
    }
    assert!(begun(0, 80_000, false).is_ok() && begun(0, 80_000, true).is_ok());
}

#[test]
fn duty_and_reading_keep_9_and_10() {
    for available in ABOVE {
        assert_eq!(duty_for(available), Ok(960));
        assert_eq!(reading(available), Err(9));
    }
    assert_eq!((duty_for(5_999), reading(1_001)), (Err(10), Err(9)));
}

// ---- The reply beside 13 ----

#[test]
fn beside_13_stands_what_stands_beside_7() {
    for state in lent() {
        let (_, limit) = state.call(10_000, &Event::Limit(80_001));
        let (_, measure) = state.call(10_000, &Event::measure_one(LARGEST + 1));
        assert_eq!((limit.reply.refusal, measure.reply.refusal), (13, 7));
        let refusal = 7;
        let reply = limit.reply;
        assert_eq!(Reply { refusal, ..reply }, measure.reply);
        // No list is known to lead here, so the fault told is open beside both.
        told_open(limit.reply);
        told_open(measure.reply);
    }
}

/// The bench list up to the closing at 40, in a plain post and in a digital one.
fn both_closed() -> [Post; 2] {
    [Post::closed_with(3_000), closed(16_000)]
}

/// What stands beside 13 in both posts with these waves, after a measure.
fn beside_13(waves: [u32; 2]) -> [Reply; 2] {
    waves.map(|wave| Reply {
        refusal: 13,
        letter: b'C',
        digit: 2,
        wave,
        closed: true,
        faults: NO_FAULT,
        told: Some(0),
        closings: 1,
        lines: [1_000, 2_000, 3_000],
    })
}

#[test]
fn reply_of_a_list_beside_13() {
    for (mut post, reply) in both_closed().into_iter().zip(beside_13([533, 50])) {
        post.call(50, Event::Measure([1_000, 2_000, 3_000]));
        assert_eq!(post.call(50, Event::Limit(80_001)), reply);
        // Beside it stands the first fault.
        fault_calls(&mut post, 60, &[4, 3], 4);
        let faulty = Reply {
            letter: b'F',
            digit: 0,
            wave: 0,
            closed: false,
            faults: [false, false, true, true, false],
            told: Some(4),
            ..reply
        };
        assert_eq!(post.call(60, Event::Limit(80_001)), faulty);
    }
}

// ---- Lists ----

/// Limits that are too large, all at one time. They must leave the post as it is.
fn too_large(post: &mut Post, time: u64) {
    let before = post.state;
    for limit in ABOVE {
        assert_eq!(post.call(time, Event::Limit(limit)).refusal, 13, "{limit}");
    }
    assert_eq!(post.state, before);
}

#[test]
fn refused_limit_leaves_the_stored_one() {
    for (digital, wave) in [(false, 533), (true, 50)] {
        let (state, _) = begun(0, 32_000, digital).unwrap();
        let outcome = None;
        let mut post = Post { state, outcome };
        too_large(&mut post, 0);
        post.sample(10, 9_000, 9_000);
        let reply = post.sample(20, 9_000, 9_000);
        assert_eq!(
            (told(reply), post.state.limit),
            ((b'B', 1, 1_000, "open"), 0)
        );
        let reply = post.call(30, Event::Limit(80_000));
        assert_eq!(told(reply), (b'B', 2, wave, "open"));
        too_large(&mut post, 40);
        let reply = post.call(40, Event::Tick);
        assert_eq!(told(reply), (b'B', 2, wave, "open"));
        assert_eq!(post.state.limit, 80_000);
    }
}

#[test]
fn refused_limit_moves_no_clock() {
    for mut post in both_closed() {
        too_large(&mut post, 100);
        too_large(&mut post, MAX_TIME);
        assert_eq!(post.call(50, Event::Limit(80_000)).refusal, 0);
        assert_eq!(post.call(49, Event::Limit(80_001)).refusal, 2);
        assert_eq!(post.call(49, Event::Limit(80_000)).refusal, 2);
        too_large(&mut post, 50);
    }
}

#[test]
fn refused_limit_opens_nothing() {
    for mut post in both_closed() {
        assert!(post.sample(50, 9_000, -12_000).closed);
        too_large(&mut post, 121);
        assert!(post.call(120, Event::Tick).closed);
        too_large(&mut post, 121);
        assert!(!post.call(121, Event::Tick).closed);
        let causes = post.outcome.unwrap().causes;
        assert_eq!(causes, [false, true, false, false, false]);
    }
}

/// C samples from 5,010 to 7,990 with refused limits among them.
fn ready_under_refused_limits(post: &mut Post) {
    for time in (5_010..8_000).step_by(10) {
        too_large(post, time);
        assert_eq!(told(post.ready(time, time)), (b'C', 1, 1_000, "closed"));
    }
}

#[test]
fn refused_limit_leaves_a_stop() {
    for mut post in both_closed() {
        post.ready(50, 5_000);
        let reply = post.call(5_000, Event::Limit(0));
        assert_eq!(told(reply), (b'C', 1, 1_000, "closed"));
        ready_under_refused_limits(&mut post);
        too_large(&mut post, 8_000);
        assert_eq!(post.state.stop, Some(5_000));
        assert!(!post.call(8_000, Event::Tick).closed);
        assert_eq!(post.outcome.unwrap().causes, STOPPED);
    }
}

#[test]
fn refused_limit_leaves_an_over_run() {
    for mut post in both_over_running(5_040) {
        too_large(&mut post, FAULT_2_AT);
        assert_eq!(post.state.overrun, Some(50));
        assert_eq!(post.state.faults, NO_FAULT);
        let reply = post.call(FAULT_2_AT, Event::Limit(80_000));
        assert_eq!((reply.refusal, reply.faults), (0, OVER_CURRENT));
    }
}
