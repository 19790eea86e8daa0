//! The wrapper over the archive: the refusals of the calls by name, and a controller that they leave alone; the stored pause; a fault and
//! its end; the current on each line.
use chuldariin::{raw, Begin, Fault, Milliamps, Millis, Post, Refusal, Reply};

const BEGIN: Begin = Begin {
    time: Millis(0),
    rated: Milliamps(32_000),
    pause: Millis(0),
    ventilation: false,
    digital: false,
};

fn window(high: i32, low: i32) -> [i32; 256] {
    let mut readings = [high; 256];
    readings[128..].fill(low);
    readings
}

fn charging() -> Post {
    let (mut post, _) = Post::begin(BEGIN).expect("the settings are in range");
    post.limit(Millis(0), Milliamps(32_000))
        .expect("a limit in range");
    for (time, high, low) in [
        (10, 9_000, 9_000),
        (20, 9_000, 9_000),
        (30, 6_000, -12_000),
        (40, 6_000, -12_000),
    ] {
        post.sample(Millis(time), &window(high, low))
            .expect("a window in range");
    }
    assert!(post.controller().closed);
    post
}

#[test]
fn the_pause_that_is_stored() {
    for (given, stored) in [(0, 10_000), (3_000, 3_000)] {
        let pause = Millis(given);
        let (post, _) = Post::begin(Begin { pause, ..BEGIN }).expect("a pause in range");
        assert_eq!(post.controller().settings.pause, stored);
    }
}

/// A call that is refused.
type Call<'a> = &'a dyn Fn(&mut Post) -> Result<Reply, Refusal>;

#[test]
fn every_refusal_leaves_the_controller_alone() {
    let post = charging();
    let uneven: Vec<i32> = (0..256).map(|i| -15_000 + (i % 100) * 300).collect();
    let refused: [(Refusal, Call); 11] = [
        (Refusal::Settings, &|p| {
            p.begin_again(Begin {
                pause: Millis(999),
                ..BEGIN
            })
        }),
        (Refusal::Earlier, &|p| p.tick(Millis(39))),
        (Refusal::Late, &|p| p.clear(Millis(1_000_000_000_001))),
        (Refusal::Length, &|p| p.sample(Millis(50), &[0; 255])),
        (Refusal::Reading, &|p| p.sample(Millis(50), &[-15_001; 256])),
        (Refusal::Unsupported, &|p| p.sample(Millis(50), &uneven)),
        (Refusal::Limit, &|p| p.limit(Millis(50), Milliamps(80_001))),
        (Refusal::Measure, &|p| {
            p.measure(Millis(50), Milliamps(200_001))
        }),
        (Refusal::Measure, &|p| {
            p.measure_lines(Millis(50), [0, 0, 200_001].map(Milliamps))
        }),
        (Refusal::Plain, &|p| p.link(Millis(50), Milliamps(80_001))),
        (Refusal::Kind, &|p| p.fault(Millis(50), Fault::Overcurrent)),
    ];
    for (refusal, call) in refused {
        let mut lent = post.clone();
        assert_eq!(call(&mut lent), Err(refusal));
        assert_eq!(lent, post, "{refusal}");
    }
}

#[test]
fn an_altered_controller_is_refused() {
    let mut controller = *charging().controller();
    controller.closings = 1_000_000_002;
    let mut post = Post::with(controller);
    assert_eq!(post.tick(Millis(50)), Err(Refusal::Settings));
    assert_eq!(*post.controller(), controller);
}

/// 13 for a limit and 7 for a measure, behind 3, 2 and 1.
fn limit_and_measure(digital: bool) {
    let (mut post, _) = Post::begin(Begin { digital, ..BEGIN }).expect("in range");
    post.tick(Millis(40)).expect("a tick");
    for above in [80_001, 200_001, u32::MAX].map(Milliamps) {
        assert_eq!(post.limit(Millis(50), above), Err(Refusal::Limit));
        assert_eq!(post.limit(Millis(39), above), Err(Refusal::Earlier));
        assert_eq!(post.limit(Millis(u64::MAX), above), Err(Refusal::Late));
    }
    let above = Milliamps(200_001);
    assert_eq!(post.measure(Millis(50), above), Err(Refusal::Measure));
    assert_eq!(post.measure(Millis(39), above), Err(Refusal::Earlier));
    assert_eq!(post.measure(Millis(u64::MAX), above), Err(Refusal::Late));
    let controller = raw::Controller {
        limit: 80_001,
        ..*post.controller()
    };
    let mut lent = Post::with(controller);
    assert_eq!(lent.limit(Millis(50), above), Err(Refusal::Settings));
    assert_eq!(lent.measure(Millis(50), above), Err(Refusal::Settings));
    assert_eq!(*lent.controller(), controller);
}

#[test]
fn limit_and_measure_are_told_separately() {
    limit_and_measure(false);
    limit_and_measure(true);
}

#[test]
fn a_fault_opens_and_clear_begins_again_from_u() {
    let mut post = charging();
    let reply = post
        .fault(Millis(50), Fault::Residual)
        .expect("a fault that the host may tell");
    assert_eq!(
        (reply.state.to_string().as_str(), reply.wave, reply.closed),
        ("F", 0, false)
    );
    assert_eq!(reply.fault, Some(Fault::Residual));
    let reply = post.clear(Millis(60)).expect("clear");
    assert_eq!(
        (reply.state.to_string().as_str(), reply.wave, reply.fault),
        ("U", 1_000, None)
    );
}

#[test]
fn a_lowered_limit_restarts_an_over_run() {
    let mut post = charging();
    post.measure(Millis(50), Milliamps(36_000))
        .expect("in range");
    let start = |post: &Post| post.controller().overrun.time;
    assert_eq!(start(&post), 50);
    for (time, limit, began) in [
        (60, 32_000, 50),
        (70, 16_000, 70),
        (80, 16_000, 70),
        (90, 32_000, 70),
    ] {
        post.limit(Millis(time), Milliamps(limit))
            .expect("in range");
        assert_eq!(start(&post), began, "{limit} at {time}");
    }
}

#[test]
fn a_digital_post_closes_with_its_grant_and_stops_without() {
    let begin = Begin {
        digital: true,
        ..BEGIN
    };
    let (mut post, _) = Post::begin(begin).expect("the settings are in range");
    post.limit(Millis(0), Milliamps(32_000))
        .expect("a limit in range");
    let sample = |post: &mut Post, time, high, low| {
        let reply = post.sample(Millis(time), &window(high, low));
        reply.map(|reply| (reply.state.to_string(), reply.wave, reply.closed))
    };
    let told = |state: &str, wave, closed| Ok((state.to_string(), wave, closed));
    for (time, high, low) in [(10, 9_000, 9_000), (20, 9_000, 9_000), (30, 6_000, -12_000)] {
        sample(&mut post, time, high, low).expect("a window in range");
    }
    assert_eq!(sample(&mut post, 40, 6_000, -12_000), told("C2", 50, false));
    let refused = post.link(Millis(45), Milliamps(80_001));
    assert_eq!(refused, Err(Refusal::Grant));
    post.link(Millis(45), Milliamps(6_000)).expect("a grant");
    assert_eq!(post.controller().grant, 6_000);
    assert_eq!(sample(&mut post, 50, 6_000, -12_000), told("C2", 50, true));
    let reply = post.link(Millis(60), Milliamps(5_999)).expect("a grant");
    assert_eq!((reply.wave, reply.closed), (1_000, true));
    assert!(post.controller().stop.set);
}

#[test]
fn the_last_measure_is_shown_line_by_line() {
    let mut post = charging();
    let lines = [1_000, 36_000, 2_000].map(Milliamps);
    let reply = post.measure_lines(Millis(50), lines).expect("in range");
    assert_eq!(reply.lines, lines);
    assert_eq!(post.controller().lines.each(), [1_000, 36_000, 2_000]);
    // The largest is above 1.1 times what 533 announces.
    assert!(post.controller().overrun.set);
    let reply = post.tick(Millis(60)).expect("a later time");
    assert_eq!(reply.lines, lines);
    let reply = post.measure(Millis(70), Milliamps(5)).expect("in range");
    assert_eq!(reply.lines, [5, 0, 0].map(Milliamps));
    assert!(!post.controller().overrun.set);
}

#[test]
fn the_first_latched_fault_is_told() {
    let mut post = charging();
    let mut tell = |time, fault| post.fault(Millis(time), fault).expect("a kind").fault;
    assert_eq!(tell(50, Fault::Temperature), Some(Fault::Temperature));
    assert_eq!(tell(60, Fault::Residual), Some(Fault::Temperature));
    assert_eq!(tell(70, Fault::Temperature), Some(Fault::Temperature));
    assert_eq!(post.faults(), [Fault::Temperature, Fault::Residual]);
    assert_eq!(post.controller().faults.each(), [0, 0, 2, 0, 1]);
    assert_eq!(post.clear(Millis(80)).expect("a clear").fault, None);
    assert_eq!(post.faults(), []);
    post.fault(Millis(90), Fault::Residual).expect("a kind");
    assert_eq!(post.faults(), [Fault::Residual]);
}

/// Of a current that is too large the advice tells where it came from.
#[test]
fn meter_link_and_load_manager() {
    for (number, refusal, from) in [
        (7, Refusal::Measure, "are the meter and its scaling"),
        (11, Refusal::Grant, "are the link and its scaling"),
        (13, Refusal::Limit, "are the load manager and its scaling"),
    ] {
        assert_eq!(refusal.number(), number);
        assert!(refusal.to_string().contains(from), "{refusal}");
    }
}

#[test]
fn each_number_has_its_refusal_and_each_refusal_its_advice() {
    for number in 1..=13 {
        let refusal = Refusal::of(number).expect("thirteen refusals");
        assert_eq!(refusal.number(), number);
        assert!(refusal
            .to_string()
            .starts_with(&format!("refused {number}: ")));
    }
    assert_eq!((Refusal::of(0), Refusal::of(14)), (None, None));
}
