//! The paper's bench figures and field faults, as lists of text, on both sides.

use chuldariin::raw::Controller;
use chuldariin_log::text::calls;
use chuldariin_log::{Call, Window};
use chuldariin_model::{Band, State};
use chuldariin_trials::trial::Trial;

/// B2 at 20, closed at 40.
const CHARGING: &str = "\
limit 0 32000
sample 10 9000 9000
sample 20 9000 9000
sample 30 6000 -12000
sample 40 6000 -12000
";

/// The state after a list, on which both sides agree call by call.
fn run(calls: Vec<Call>) -> State {
    let mut trial = Trial::from(Controller::ZEROED);
    for call in calls {
        if trial.run(call).is_err() {
            panic!("the two sides differ\n{}", trial.report("paper"));
        }
    }
    trial.state()
}

/// Charging, with a pause as begin is given it, and these calls.
fn list_with(pause: u64, text: &str) -> Vec<Call> {
    let list = format!("begin 0 32000 {pause} no\n{CHARGING}{text}");
    calls(&list).expect("a list of calls")
}

fn list(text: &str) -> Vec<Call> {
    list_with(0, text)
}

/// The state after charging and these calls.
fn after(text: &str) -> State {
    run(list(text))
}

/// Ready samples every 10 ms, both ends in.
fn ready(from: u64, to: u64) -> impl Iterator<Item = Call> {
    let times = (from..=to).step_by(10);
    times.map(|time| Call::Sample(time, Window::Halves(6_000, -12_000)))
}

#[test]
fn closes_at_40_and_starves_at_121() {
    let state = after("");
    assert_eq!((state.closed, state.closings, state.wave), (true, 1, 533));
    assert!(after("sample 50 9000 -12000\n").closed);
    assert!(after("sample 50 9000 -12000\ntick 120\n").closed);
    assert!(!after("sample 50 9000 -12000\ntick 121\n").closed);
}

/// Opened at 60, with the van ready again at once.
#[test]
fn closes_again_after_the_pause() {
    for (given, pause) in [(3_000, 3_000), (0, 10_000)] {
        let closing = 60 + pause;
        let mut calls = list_with(given, "sample 50 9000 -12000\nsample 60 9000 -12000\n");
        assert!(!run(calls.clone()).closed, "pause {given}");
        calls.extend(ready(70, closing - 10));
        assert!(!run(calls.clone()).closed, "pause {given}");
        calls.extend(ready(closing, closing));
        let state = run(calls);
        assert_eq!((state.closed, state.closings), (true, 2), "pause {given}");
        assert_eq!(state.pause, pause);
    }
}

#[test]
fn a_stop_takes_3_s_and_does_not_start_afresh() {
    let mut calls = list("");
    calls.extend(ready(50, 5_000));
    calls.push(Call::Limit(5_000, 0));
    calls.extend(ready(5_010, 6_000));
    calls.push(Call::Limit(6_000, 0));
    calls.extend(ready(6_010, 7_990));
    assert!(run(calls.clone()).closed);
    calls.extend(ready(8_000, 8_000));
    assert!(!run(calls).closed);
}

#[test]
fn an_over_run_takes_5_s() {
    assert_eq!(after("measure 40 35178\n").overrun, None);
    let mut calls = list("measure 40 35179\n");
    calls.extend(ready(50, 5_030));
    let mut early = calls.clone();
    early.push(Call::Tick(5_039));
    assert!(!run(early).any_fault());
    calls.push(Call::Tick(5_040));
    let state = run(calls);
    assert_eq!(state.faults, [false, true, false, false, false]);
    assert_eq!((state.wave, state.closed), (0, false));
}

#[test]
fn an_over_run_on_each_line() {
    assert_eq!(after("measure 40 35178 35178 35178\n").overrun, None);
    for lines in ["35179 0 12000", "31000 35179 0", "0 35178 35179"] {
        let mut calls = list(&format!("measure 40 {lines}\n"));
        calls.extend(ready(50, 5_030));
        let mut early = calls.clone();
        early.push(Call::Tick(5_039));
        assert!(!run(early).any_fault(), "{lines}");
        calls.push(Call::Tick(5_040));
        assert!(run(calls).faults[1], "{lines}");
    }
}

/// An over-run from 1,000 on, with ready samples; this limit comes so long after.
fn limited_at(age: u64, limit: u32) -> Vec<Call> {
    let mut calls = list("");
    calls.extend(ready(50, 1_000));
    calls.push(Call::Measure(1_000, 35_179));
    calls.extend(ready(1_000, 999 + age));
    calls.push(Call::Limit(1_000 + age, limit));
    calls
}

/// The state after these calls, then ready samples up to a time, and a tick then.
fn held(mut calls: Vec<Call>, time: u64) -> State {
    let last = calls.last().map_or(0, Call::time);
    calls.extend(ready(last, time));
    calls.push(Call::Tick(time));
    run(calls)
}

#[test]
fn a_lowered_duty_restarts_an_over_run() {
    let lowered = limited_at(4_999, 16_000);
    assert_eq!(run(lowered.clone()).overrun, Some(5_999));
    let early = held(lowered.clone(), 10_998);
    assert_eq!((early.wave, early.closed), (266, true));
    assert!(held(lowered, 10_999).faults[1]);
    let late = run(limited_at(5_000, 16_000));
    assert!(late.faults[1] && late.wave == 0);
    // Lowered once more: from then on.
    let mut twice = limited_at(4_000, 16_000);
    twice.extend(ready(5_000, 7_000));
    twice.push(Call::Limit(7_000, 10_000));
    assert!(held(twice.clone(), 11_999).closed);
    assert!(held(twice, 12_000).faults[1]);
}

#[test]
fn no_other_limit_restarts_it() {
    // The same; lower by so little that the duty stays.
    for limit in [32_000, 31_980] {
        let calls = limited_at(4_999, limit);
        assert_eq!(run(calls.clone()).overrun, Some(1_000), "{limit}");
        assert!(held(calls, 6_000).faults[1], "{limit}");
    }
    assert_eq!(run(limited_at(4_999, 31_979)).overrun, Some(5_999));
    // Raised.
    let mut calls = list("limit 40 16000\nmeasure 40 17557\n");
    calls.extend(ready(50, 5_030));
    calls.push(Call::Limit(5_039, 32_000));
    let raised = run(calls.clone());
    assert_eq!((raised.wave, raised.overrun), (533, Some(40)));
    assert!(held(calls, 5_040).faults[1]);
    // None runs.
    assert_eq!(after("limit 50 16000\n").overrun, None);
}

/// The same in a digital post with this grant: B2 at 20, closed at 40 if the grant is enough.
fn linked(granted: u32, text: &str) -> Vec<Call> {
    let list = format!("begin 0 32000 0 no digital\nlink 0 {granted}\n{CHARGING}{text}");
    calls(&list).expect("a list of calls")
}

#[test]
fn a_digital_post_drives_50_and_closes_by_its_grant() {
    for (granted, closed) in [(0, false), (5_999, false), (6_000, true), (80_000, true)] {
        let state = run(linked(granted, ""));
        assert_eq!((state.wave, state.closed), (50, closed), "{granted}");
    }
    // The partner of the sample that closes came before the grant.
    let state = run(linked(5_999, "link 45 6000\nsample 50 6000 -12000\n"));
    assert_eq!((state.closed, state.closings), (true, 1));
}

#[test]
fn a_grant_below_6000_stops_for_3_s() {
    let mut calls = linked(16_000, "");
    calls.extend(ready(50, 1_000));
    calls.push(Call::Link(1_000, 5_999));
    calls.extend(ready(1_010, 3_990));
    let stopping = run(calls.clone());
    assert_eq!((stopping.wave, stopping.closed), (1_000, true));
    let given_back = [calls.clone(), vec![Call::Link(4_000, 6_000)]].concat();
    let state = run(given_back);
    assert_eq!((state.wave, state.closed, state.stop), (50, true, None));
    calls.push(Call::Tick(4_000));
    let opened = run(calls.clone());
    assert_eq!((opened.wave, opened.closed), (1_000, false));
    calls.push(Call::Tick(4_000));
    let open = run(calls);
    assert_eq!((open.wave, open.closed, open.grant), (50, false, 5_999));
}

/// A call that tells a current.
type Tell = fn(u64, u32) -> Call;

/// The second comes before the first has gone, whichever of them is first.
#[test]
fn a_stop_for_limit_and_grant_is_one_stop() {
    let (limit, link): (Tell, Tell) = (Call::Limit, Call::Link);
    for (first, second) in [(limit, link), (link, limit)] {
        let mut calls = linked(16_000, "");
        calls.extend(ready(50, 1_000));
        calls.push(first(1_000, 0));
        calls.extend(ready(1_010, 2_000));
        calls.extend([second(2_000, 0), first(2_000, 32_000)]);
        calls.extend(ready(2_010, 3_990));
        assert_eq!(run(calls.clone()).stop, Some(1_000));
        calls.push(Call::Tick(4_000));
        assert!(!run(calls).closed);
    }
}

#[test]
fn an_over_run_of_a_digital_post_is_above_the_least() {
    for (granted, limit, most) in [
        (6_005, 80_000, 6_605),
        (80_000, 6_005, 6_605),
        (80_000, 80_000, 35_200),
    ] {
        for (measured, overrun) in [(most, None), (most + 1, Some(50))] {
            let text = format!("limit 45 {limit}\nmeasure 50 {measured}\n");
            let state = run(linked(granted, &text));
            assert_eq!(state.overrun, overrun, "{granted} {limit} {measured}");
        }
    }
    // A lower grant restarts none.
    let mut calls = linked(16_000, "measure 40 17601\n");
    calls.extend(ready(50, 5_030));
    calls.push(Call::Link(5_039, 10_000));
    assert!(held(calls.clone(), 5_039).closed);
    assert!(held(calls, 5_040).faults[1]);
}

#[test]
fn a_settled_a_takes_the_grant() {
    let left = "sample 50 12000 -12000\nsample 60 12000 -12000\n";
    for (text, grant) in [
        ("", 0),
        ("link 65 16000\n", 0),
        (
            "sample 70 9000 9000\nlink 75 16000\nsample 80 9000 9000\n",
            0,
        ),
        (
            "sample 70 9000 9000\nsample 80 9000 9000\nlink 85 16000\n",
            16_000,
        ),
    ] {
        assert_eq!(
            run(linked(16_000, &format!("{left}{text}"))).grant,
            grant,
            "{text}"
        );
    }
    assert_eq!(run(linked(16_000, "fault 50 3\nclear 60\n")).grant, 16_000);
}

#[test]
fn the_last_accepted_measure_is_kept() {
    assert_eq!(after("").lines, [0, 0, 0]);
    let measured = "measure 40 1 2 3\n";
    for (more, kept) in [
        ("", [1, 2, 3]),
        ("measure 50 4\n", [4, 0, 0]),
        ("measure 50 200001 0 0\n", [1, 2, 3]),
        ("measure 50 0 200001 0\n", [1, 2, 3]),
        ("measure 50 0 0 200001\n", [1, 2, 3]),
        ("measure 50 0 200000 0\n", [0, 200_000, 0]),
        ("fault 50 3\nclear 60\n", [1, 2, 3]),
        ("fault 50 3\nmeasure 50 6 5 4\nclear 60\n", [6, 5, 4]),
        ("begin 50 32000 0 no\n", [0, 0, 0]),
    ] {
        assert_eq!(after(&format!("{measured}{more}")).lines, kept, "{more}");
    }
}

#[test]
fn levels_between_bands_keep_the_contactor_closed() {
    let state = after("sample 50 7200 -12000\nsample 60 7499 -12000\nsample 70 7001 -11000\n");
    assert_eq!((state.closed, state.settled), (true, Some(Band::C)));
    assert!(!after("sample 50 7500 -12000\nsample 60 1500 -12000\n").closed);
}

/// Without this sample the last sound one is that at 40, and the tick at 121 opens.
#[test]
fn a_high_level_of_1501_or_7499_is_sound_and_1500_or_7500_is_not() {
    for (high, sound) in [(1_500, false), (1_501, true), (7_499, true), (7_500, false)] {
        let sample = format!("sample 50 {high} -12000\n");
        assert!(after(&sample).closed, "{high}");
        let state = after(&format!("{sample}tick 121\n"));
        assert_eq!(state.closed, sound, "{high}, then a tick");
        let last_sound = if sound { 50 } else { 40 };
        assert_eq!(state.sound, Some(last_sound), "{high}, then a tick");
        let state = after(&format!("{sample}sample 60 {high} -12000\n"));
        assert_eq!(state.closed, sound, "{high} twice");
    }
}

#[test]
fn samples_at_1501_alone_keep_the_contactor_closed() {
    let mut calls = list("");
    let times = (110..=1_000).step_by(70);
    calls.extend(times.map(|time| Call::Sample(time, Window::Halves(1_501, -12_000))));
    let state = run(calls);
    assert_eq!((state.closed, state.settled), (true, Some(Band::C)));
    assert_eq!(state.sound, Some(950));
}

#[test]
fn a_diode_sample_from_before_an_opening_does_not_count() {
    let state = after("sample 50 6000 -10999\ntick 121\nsample 130 6000 -10999\n");
    assert_eq!((state.closed, state.any_fault()), (false, false));
    assert!(after("sample 50 6000 -10999\nsample 60 6000 -10999\n").faults[0]);
}

#[test]
fn a_refused_call_does_not_move_the_clock() {
    let state = after("limit 900 80001\nfault 900 6\nwindow 900\ntick 50\n");
    assert_eq!((state.closed, state.last), (true, 50));
}

#[test]
fn duties_of_the_bench_rows() {
    for (limit, wave) in [
        (6_000, 100),
        (6_059, 100),
        (6_060, 101),
        (32_000, 533),
        (51_000, 850),
        (52_000, 850),
        (52_749, 850),
        (52_750, 851),
        (80_000, 960),
    ] {
        let text = format!(
            "begin 0 80000 0 no\nlimit 0 {limit}\nsample 10 9000 9000\nsample 20 9000 9000\n"
        );
        let state = run(calls(&text).expect("a list of calls"));
        assert_eq!(
            (state.settled, state.wave),
            (Some(Band::B), wave),
            "{limit}"
        );
    }
}
