//! What `why` tells of each closing condition.

use tool::{line, run, says, text, waits, why, CHARGE, PLUGGED};

mod tool;

#[test]
fn after_begin() {
    let answer = why("begin 0 32000 3000 no\n", "0");
    says(&answer, "contactor open before", "yes");
    says(&answer, "opened before, if at all", "yes");
    says(&answer, "a sample call", "no   begin 32,000 mA");
    says(
        &answer,
        "wave driven",
        "no   +12 V: limit 0 mA is below 6,000, and no state is settled (U)",
    );
    says(&answer, "this sample", "no   no sample in this call");
    says(&answer, "previous sample", "no   there is none since begin");
    says(&answer, "both in one band", "no   no sample in this call");
    says(&answer, "pause", "yes  not opened since begin");
    waits(&answer, "a limit of 6,000 mA or more (it is 0), a settled state (it is U) and two proven samples in a row in one band");
}

/// A closed contactor, and when fault 2 would open it.
#[test]
fn an_over_run_that_runs() {
    for (calls, words) in [
        ("", "CLOSED: proven in C at 30 and 40; not opened since begin"),
        ("measure 50 36000\n", "An over-run runs since 50: fault 2 at 5050 unless it ends or the duty is lowered."),
        (
            "measure 50 36000\nlimit 60 16000\n",
            "An over-run runs since 50, restarted at 60, when the duty was lowered: fault 2 at 5060 unless it ends or the duty is lowered.",
        ),
    ] {
        let answer = why(&format!("{CHARGE}{calls}"), "60");
        assert_eq!(answer.lines().last(), Some(words));
    }
}

#[test]
fn a_wave_that_is_not_driven() {
    for (calls, steady, wanted) in [
        (
            "limit 0 6000\n",
            "+12 V: no state is settled (U)",
            "a settled state (it is U)",
        ),
        (
            "limit 0 9000\nsample 10 12000 12000\nsample 20 12000 12000\n",
            "+12 V: state A: no van is plugged in",
            "a van (the state is A)",
        ),
        (
            "limit 0 9000\nsample 10 3000 3000\nsample 20 3000 3000\n",
            "+12 V: state D, and the post has no ventilation",
            "a state other than D (D wants ventilation, and the post has none)",
        ),
        (
            "limit 0 9000\nsample 10 0 0\nsample 20 0 0\n",
            "+12 V: state E",
            "a state other than E (a short circuit, or no power)",
        ),
        (
            "limit 0 5999\nsample 10 9000 9000\nsample 20 9000 9000\n",
            "+12 V: limit 5,999 mA is below 6,000",
            "a limit of 6,000 mA or more (it is 5,999)",
        ),
        (
            "fault 10 3\nfault 20 4\nlimit 20 9000\n",
            "-12 V: fault latched: residual current first, then welded contact, and no state is settled (U)",
            "a clear call (fault: residual current first, then welded contact), a settled state (it is U)",
        ),
    ] {
        let answer = why(&format!("begin 0 32000 3000 no\n{calls}"), "20");
        says(&answer, "wave driven", &format!("no   {steady}"));
        waits(
            &answer,
            &format!("{wanted} and two proven samples in a row in one band"),
        );
    }
}

#[test]
fn a_sample_that_is_not_proven() {
    for (levels, words) in [
        ("9000 -12000", "no   high 9,000 mV is B, not a ready band"),
        ("7200 -12000", "no   high 7,200 mV has no band"),
        (
            "3000 -12000",
            "no   high 3,000 mV is D, and the post has no ventilation",
        ),
        (
            "6000 -13001",
            "no   low -13,001 mV is outside -13,000 to -11,000",
        ),
        ("6000 -13000", "yes  high 6,000 mV is C, low -13,000 mV"),
    ] {
        let answer = why(&format!("{PLUGGED}sample 30 {levels}\n"), "30");
        says(&answer, "this sample", words);
    }
    let answer = why("begin 0 32000 0 no\nsample 10 6000 6000\n", "10");
    says(
        &answer,
        "this sample",
        "no   the wave was not driven before its call",
    );
    let ventilated = PLUGGED.replace("no", "yes");
    let answer = why(&format!("{ventilated}sample 30 3000 -12000\n"), "30");
    says(
        &answer,
        "this sample",
        "yes  high 3,000 mV is D, low -12,000 mV",
    );
    says(&answer, "both in one band", "no   B, then D");
    waits(&answer, "one more proven sample in D");
}

#[test]
fn a_previous_sample_that_is_forgotten() {
    let answer = why(&format!("{CHARGE}tick 121\n"), "121");
    says(&answer, "contactor open before", "no");
    says(
        &answer,
        "opened before, if at all",
        "no   this call opened it",
    );
    says(
        &answer,
        "previous sample",
        "no   it is forgotten in this call",
    );
    let answer = why(
        &format!("{CHARGE}sample 50 3000 -12000\nsample 60 3000 -12000\n"),
        "60",
    );
    says(
        &answer,
        "both in one band",
        "no   the previous sample is forgotten in this call",
    );
    line(
        &answer,
        "OPENED: state D, and the post has no ventilation (iii); line 8, at 60",
    );
    let ready = format!("{PLUGGED}sample 30 6000 -12000\nfault 35 3\n");
    says(
        &why(&ready, "35"),
        "previous sample",
        "no   it is forgotten in this call",
    );
    // An opening that latches a fault too is told as the opening.
    let both = why(
        &format!("{CHARGE}fault 50 3\nsample 60 -12000 -12000\n"),
        "60",
    );
    says(
        &both,
        "previous sample",
        "no   it was forgotten by the opening at 50",
    );
    let answer = why(&format!("{ready}tick 45\nsample 50 -12000 -12000\n"), "50");
    says(
        &answer,
        "previous sample",
        "no   it was forgotten by the fault at 35",
    );
    says(
        &answer,
        "both in one band",
        "no   no previous sample, then no band",
    );
}

#[test]
fn pause_0_is_10_s() {
    let charge = CHARGE.replace("3000 no", "0 no");
    let answer = why(&format!("{charge}tick 121\ntick 3121\n"), "3121");
    says(
        &answer,
        "pause",
        "no   7,000 ms left of 10,000, since the opening at 121",
    );
    waits(
        &answer,
        "two proven samples in a row in one band and the end of the pause at 10121",
    );
}

#[test]
fn the_pause_to_the_millisecond() {
    let opened = format!("{CHARGE}tick 121\n");
    let answer = why(&format!("{opened}tick 3120\n"), "3120");
    says(
        &answer,
        "pause",
        "no   1 ms left of 3,000, since the opening at 121",
    );
    waits(
        &answer,
        "two proven samples in a row in one band and the end of the pause at 3121",
    );
    let answer = why(&format!("{opened}tick 3121\n"), "3121");
    says(
        &answer,
        "pause",
        "yes  over: opened at 121, 3,000 ms ago; the pause is 3,000 ms",
    );
    waits(&answer, "two proven samples in a row in one band");
    line(
        &answer,
        "OPENED: 81 ms since the last sound sample (ii); line 7, at 121",
    );
    let again = format!("{opened}sample 3200 6000 -12000\nsample 3210 6000 -12000\n");
    line(
        &why(&again, "3220"),
        "The contactor is closed since line 9, at 3210.",
    );
}

#[test]
fn refused_calls_are_told_and_no_more() {
    let log = "begin 0 32000 0 no\ntick 20\nlimit 25 80001\nmeasure 26 200001\ntick 1000000000001\nlimit 90 80001\ntick 95\ntick 3\n";
    let first = "; the first is line 3, limit 80,001 mA: REFUSED 13: a limit is at most 80,000 mA, so 0 mA stays; is the load manager's unit milliamps?";
    line(
        &why(log, "40"),
        &format!("after it 2 refused, which judge nothing{first}"),
    );
    line(
        &why(log, "90"),
        &format!("after it 4 refused, which judge nothing{first}"),
    );
    assert!(!why(log, "20").contains("limit 80,001"));
    line(
        &why(log, "99"),
        "at 99: the last accepted call is line 7, tick at 95, 4 ms before",
    );
}

#[test]
fn the_last_measure_is_told() {
    let log = format!("{CHARGE}measure 50 1000 20000 0\nmeasure 60 0 0 200001\n");
    let told = why(&log, "60");
    assert!(
        told.contains("closings 1, last measure 1,000 20,000 0 mA\n"),
        "{told}"
    );
    assert!(!why(&log, "45").contains("last measure"));
}

#[test]
fn what_can_not_be_asked() {
    for words in [
        &["why", "-", "--at", "+5"][..],
        &["why", "-", "--at", "5", "--at", "6"],
        &["why", "-", "--at", "5", "--line", "6"],
        &["why", "-", "--line", "0"],
    ] {
        assert_eq!(
            run(words, b"begin 0 32000 0 no\n").status.code(),
            Some(2),
            "{words:?}"
        );
    }
    let none = run(&["why", "-", "--at", "5"], b"begin 0 1 0 no\n");
    assert_eq!(
        text(&none.stderr),
        "chuldariin: --at 5: no call of the log is accepted: nothing has begun; line 1 is refused by 1: rated 1 mA is not 6,000 to 80,000\n"
    );
}

#[test]
fn the_last_opening_of_the_list() {
    let mut log = format!("{CHARGE}tick 121\n");
    for time in [3_200, 3_210] {
        log.push_str(&format!("sample {time} 6000 -12000\n"));
    }
    log.push_str("fault 3220 5\n");
    let answer = why(&log, "3220");
    line(
        &answer,
        "OPENED: fault: over-temperature (v); line 10, at 3220",
    );
    assert!(!answer.contains("(ii)"));
    let answer = why(&format!("{log}begin 3300 32000 0 no\n"), "3300");
    assert!(!answer.contains("OPENED"), "{answer}");
}
