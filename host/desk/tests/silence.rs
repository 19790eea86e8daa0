//! Refused stretches, clocks that jump and hosts that fall silent: what `replay`, `why` and the summary say of them.

use tool::{answer, line, why, CHARGE};

mod tool;

/// A closed contactor, and an hour of samples that are refused.
fn hour_of_refusals() -> String {
    let mut log = CHARGE.to_string();
    for time in (60..3_600_000).step_by(20) {
        log.push_str(&format!("sample {time} 16000 -12000\n"));
    }
    log
}

#[test]
fn an_hour_of_refused_samples() {
    let log = hour_of_refusals();
    let shown = answer(&["replay", "-", "--only", "changes"], &log);
    // Of equal refusals the first is shown, and the one from which on the silence is too long.
    assert_eq!(shown.matches("REFUSED 5").count(), 2);
    let first = line(&shown, "12      160");
    assert!(
        first
            .ends_with("!! no accepted call for 120 ms while closed: the 80 ms rule is not judged"),
        "{first}"
    );
    for row in [
        "  time      0 to 3599980 ms, closed for 3,599,940 ms",
        "  silence   1 time without an accepted call while closed; the longest 3,599,940 ms, from 40 to 3599980: the 80 ms rule was not judged",
        "  end       refused, 179,997 calls in a row: nothing is judged since 40, and the contactor stays closed",
    ] {
        assert!(shown.lines().any(|shown| shown == row), "{row}");
    }
    let answer = why(&log, "1800000");
    line(&answer, "after it 89,998 refused, which judge nothing");
    line(&answer, "The contactor is closed since line 6, at 40.");
    line(
        &answer,
        "No accepted call for 1,799,960 ms while closed: the 80 ms rule was not judged.",
    );
    assert!(!answer.contains("The log ends"), "{answer}");
}

#[test]
fn a_clock_that_jumped() {
    let mut log = format!("{CHARGE}tick 900000000000\n");
    for time in (60..6_000).step_by(20) {
        log.push_str(&format!("sample {time} 6000 -12000\n"));
    }
    let answer = why(&log, "5000");
    line(
        &answer,
        "at 5000: the last accepted call is line 7, tick at 900000000000",
    );
    line(&answer, "The call nearest to that time, line 255, at 5000, was refused for its own time: by the log's order it came after line 7, at 900000000000.");
    line(
        &answer,
        "OPENED: 899,999,999,960 ms since the last sound sample (ii); line 7",
    );
    assert!(
        answer.contains("contactor open") && !answer.contains("closed since"),
        "{answer}"
    );
    // The clock passed 5000 before it jumped, too; then it was closed, and silent.
    line(
        &answer,
        "The clock passed that time once more, after line 6, at 40: --line 6 tells of that.",
    );
    // Before the jump there is no doubt.
    let before = why(&log, "45");
    line(&before, "The contactor is closed since line 6, at 40.");
    assert!(!before.contains("refused for its own time"), "{before}");
}

#[test]
fn a_host_that_falls_silent() {
    let log = format!("{CHARGE}tick 3600000\n");
    let words = "no accepted call for 3,599,960 ms while closed: the 80 ms rule was not judged";
    let shown = answer(&["replay", "-"], &log);
    assert!(line(&shown, "7  3600000").ends_with(&format!("!! {words}")));
    line(&shown, "silence   1 time without an accepted call while closed; the longest 3,599,960 ms, from 40 to 3600000");
    let answer = why(&log, "1800000");
    line(
        &answer,
        "No accepted call for 1,799,960 ms while closed: the 80 ms rule was not judged.",
    );
}

#[test]
fn a_silence_is_more_than_100_ms_and_the_contactor_closed() {
    let silent = |calls: &str| {
        let shown = answer(&["replay", "-"], &format!("{CHARGE}{calls}"));
        shown.matches("no accepted call for").count()
    };
    assert_eq!(silent("tick 140\n"), 0);
    assert_eq!(silent("tick 141\n"), 1);
    // Open since 121, so nothing is to be judged.
    assert_eq!(silent("tick 121\ntick 5000\n"), 0);
    // A refused call does not end it, and is told once; one whose time is refused tells of no time.
    assert_eq!(silent("limit 141 80001\nlimit 150 80001\n"), 1);
    assert_eq!(silent("limit 141 80001\ntick 150\n"), 2);
    assert_eq!(silent("tick 1000000000001\ntick 5\n"), 0);
    // A begin on the same clock ends it, and one on another clock tells nothing of the time between.
    assert_eq!(silent("begin 141 32000 0 no\n"), 1);
    assert_eq!(silent("begin 39 32000 0 no\n"), 0);
}

#[test]
fn the_longest_silence_is_told_with_its_list() {
    let second = CHARGE
        .replace("begin 0", "begin 1000")
        .replace(" 0 32000", " 1000 32000");
    let second = second.replace("sample ", "sample 10");
    let log = format!("{CHARGE}tick 250\n{second}tick 1400\n");
    let shown = answer(&["replay", "-"], &log);
    line(&shown, "silence   2 times without an accepted call while closed; the longest 360 ms, from 2:1040 to 2:1400");
}

#[test]
fn past_the_end_of_a_log() {
    let answer = why(CHARGE, "45");
    line(
        &answer,
        "The log ends at 40, in line 6: what came after is not in it.",
    );
    assert!(!why(CHARGE, "40").contains("The log ends"));
    // Nobody knows what came then.
    assert!(!why(CHARGE, "141").contains("No accepted call"));
    // A refused call that is not refused for its time is a part of the log.
    let answer = why(&format!("{CHARGE}limit 60 80001\n"), "60");
    assert!(!answer.contains("The log ends"), "{answer}");
}

#[test]
fn milliseconds_since_1970() {
    for (time, words) in [
        (
            1_763_000_000_000_u64,
            "it looks like milliseconds since 1970 (2025-11-13T02:13:20.000Z): count milliseconds from the post's start",
        ),
        (
            1_763_000_000_000_000,
            "it looks like microseconds since 1970 (2025-11-13T02:13:20.000Z): count milliseconds from the post's start",
        ),
        (
            1_763_000_000_000_000_000,
            "it looks like nanoseconds since 1970 (2025-11-13T02:13:20.000Z): count milliseconds from the post's start",
        ),
        (
            9_000_000_000_000,
            "count milliseconds from the post's start",
        ),
    ] {
        let shown = answer(
            &["replay", "-"],
            &format!("begin {time} 32000 0 no\ntick {time}\n"),
        );
        let words = format!("REFUSED 3: the time is above 1,000,000,000,000 ms; {words}");
        assert_eq!(shown.matches(&words).count(), 2, "{shown}");
        line(
            &shown,
            "2  3     the time is above 1,000,000,000,000 ms: count from the post's start",
        );
    }
}

/// A van that ends its charge, one that is unplugged, a worn plug and a missing diode are told apart.
#[test]
fn what_two_unsound_samples_show() {
    for (samples, words) in [
        (
            ["9000 -12000", "9000 -12000"],
            "van back in B: high 9,000 mV at 50 and 9,000 mV at 60 are not below 7,500",
        ),
        (
            ["9000 -12000", "12000 -12000"],
            "unplugged, A: high 9,000 mV at 50 and 12,000 mV at 60 are not below 7,500",
        ),
        (
            ["12000 12000", "12000 12000"],
            "unplugged, A: high 12,000 mV at 50",
        ),
        (
            ["7592 -12000", "7592 -12000"],
            "level between bands: high 7,592 mV at 50",
        ),
        (
            ["10500 -12000", "7999 -12000"],
            "level between bands: high 10,500 mV at 50",
        ),
        (
            ["13001 -12000", "14000 -12000"],
            "level beyond all bands: high 13,001 mV at 50",
        ),
        (
            ["0 -12000", "0 -12000"],
            "short circuit or no power, E: high 0 mV at 50",
        ),
        (
            ["6000 -10999", "6000 -10999"],
            "no low level: low -10,999 mV at 50",
        ),
        (
            ["9000 9000", "9000 9000"],
            "no low level: low 9,000 mV at 50",
        ),
        (
            ["7592 -12000", "9000 -12000"],
            "one unlike the other: high 7,592 mV at 50",
        ),
        (
            ["12000 -12000", "9000 -12000"],
            "one unlike the other: high 12,000 mV at 50",
        ),
        (
            ["7592 -12000", "12000 -12000"],
            "one unlike the other: high 7,592 mV at 50",
        ),
        (
            ["7500 -12000", "1500 -12000"],
            "level between bands: high 7,500 mV at 50",
        ),
        (
            ["1501 -10999", "7499 -13001"],
            "no low level: low -10,999 mV at 50",
        ),
        (
            ["13000 -12000", "11000 -12000"],
            "unplugged, A: high 13,000 mV at 50",
        ),
        (
            ["-1001 -12000", "-1001 -12000"],
            "level beyond all bands: high -1,001 mV at 50",
        ),
        (
            ["-1000 -12000", "1000 -12000"],
            "short circuit or no power, E: high -1,000 mV at 50",
        ),
    ] {
        let [first, second] = samples;
        let log = format!("{CHARGE}sample 50 {first}\nsample 60 {second}\n");
        let shown = answer(&["replay", "-"], &log);
        let words = format!("OPENED: two unsound samples in a row, {words}");
        assert!(line(&shown, "8 ").contains(&words), "{words}\n{shown}");
        let (kind, _) = words
            .split_once(": ")
            .and_then(|rest| rest.1.split_once(": "))
            .expect("a kind");
        let kind = kind.split_once(", ").expect("a kind").1;
        let row = format!("                   1  {kind}");
        assert!(shown.lines().any(|line| line == row), "{row}\n{shown}");
    }
}

#[test]
fn the_contactor_at_the_end() {
    let end = |calls: &str| {
        let shown = answer(&["replay", "-"], &format!("{CHARGE}{calls}"));
        shown.lines().last().map(str::to_string)
    };
    assert_eq!(end("").as_deref(), Some("  end       contactor closed"));
    assert_eq!(
        end("tick 121\n").as_deref(),
        Some("  end       contactor open")
    );
    let shown = answer(
        &["replay", "-"],
        &format!("{CHARGE}tick 100\ntick 121\ntick 500\n"),
    );
    line(&shown, "time      0 to 500 ms, closed for 81 ms");
}

/// A host whose clock goes wrong while closed: every call is refused for its own time, and nothing is judged.
#[test]
fn calls_that_are_refused_for_their_own_times() {
    let samples = |from: u64, to: u64| -> String {
        let times = (from..=to).step_by(20);
        times
            .map(|time| format!("sample {time} 9000 -12000\n"))
            .collect()
    };
    // To milliseconds since 1970, for 10 s.
    let log = format!("{CHARGE}{}", samples(1_794_900_000_060, 1_794_900_010_060));
    let words = "no accepted call for at least 120 ms while closed, by the refused calls' own times: the 80 ms rule is not judged";
    let shown = answer(&["replay", "-", "--only", "changes"], &log);
    assert_eq!(shown.matches(words).count(), 1, "{shown}");
    line(&shown, "silence   1 time without an accepted call while closed; the longest at least 10,000 ms by the refused calls' own times, from 40 on: the 80 ms rule was not judged");
    let row = answer(&["summary", "-", "--format", "json"], &log);
    assert!(
        row.contains("\"silences\":1,\"silence_longest\":10000"),
        "{row}"
    );
    let answer = why(&log, "1794900005060");
    line(&answer, "No accepted call for at least 5,000 ms while closed, by the refused calls' own times: the 80 ms rule was not judged.");
    // Back by 5 s, and accepted again when the clock has come to where it was.
    let back = format!(
        "{CHARGE}sample 10000 6000 -12000\n{}sample 10020 6000 -12000\n",
        samples(5_020, 9_980)
    );
    let shown = tool::answer(&["replay", "-", "--only", "changes"], &back);
    line(&shown, "silence   2 times without an accepted call while closed; the longest 9,960 ms, from 40 to 10000");
    assert!(shown.contains("!! no accepted call for at least 4,960 ms while closed, by the refused calls' own times: the 80 ms rule was not judged"), "{shown}");
    // Steps of more than a second are jumps of the clock; and an open contactor has nothing to be judged.
    let jumps = format!("{CHARGE}tick 5\ntick 2000000000000\ntick 6\ntick 3000000000000\n");
    assert!(!tool::answer(&["replay", "-"], &jumps).contains("no accepted call"));
    let open = format!("{CHARGE}tick 121\n{}", samples(10, 100));
    assert!(!tool::answer(&["replay", "-"], &open).contains("no accepted call"));
}

/// A stray call at the end takes nothing back.
#[test]
fn a_stray_call_behind_a_silence() {
    let log = format!("{CHARGE}limit 5000 80001\ntick 5\nlimit 60 80001\n");
    let shown = answer(&["replay", "-"], &log);
    line(&shown, "silence   1 time without an accepted call while closed; the longest 4,960 ms, from 40 to 5000");
    // An accepted call has the time that it names.
    let shown = answer(&["replay", "-"], &format!("{log}sample 80 6000 -12000\n"));
    assert!(!shown.contains("silence   "), "{shown}");
}

/// What a list ends in counts, also where the next one starts its clock anew.
#[test]
fn a_restart_after_a_silence() {
    let log = format!("{CHARGE}limit 3600000 80001\nbegin 0 32000 0 no\ntick 20\n");
    let shown = answer(&["replay", "-"], &log);
    assert!(
        line(&shown, "8 ").ends_with(
            "!! no accepted call for 3,599,960 ms while closed: the 80 ms rule was not judged"
        ),
        "{shown}"
    );
    line(&shown, "silence   1 time without an accepted call while closed; the longest 3,599,960 ms, from 1:40 to 1:3600000");
    line(&shown, "time      1:0 to 2:20 ms, closed for 3,599,960 ms");
    // The time between two lists is of neither, and the opening is one to look at.
    let gap = format!("{CHARGE}begin 1000000 32000 3000 no\ntick 1000020\n");
    let row = answer(&["summary", "-", "--format", "json"], &gap);
    assert!(
        row.contains("\"opened_begin\":1,\"opened_trouble\":1,\"span\":60,\"closed\":0,"),
        "{row}"
    );
}

/// `why` counts the calls that were refused by then.
#[test]
fn refused_by_then() {
    let mut log = format!("{CHARGE}tick 900000000000\n");
    for time in (60..6_000).step_by(20) {
        log.push_str(&format!("sample {time} 6000 -12000\n"));
    }
    let by_line = |number: &str| answer(&["why", "-", "--line", number], &log);
    line(&by_line("20"), "after it 13 refused");
    line(
        &by_line("20"),
        "The call in line 20, at 300, was refused for its own time",
    );
    assert!(!by_line("7").contains("refused"));
    let epoch = "begin 0 32000 0 no\ntick 1794900000000\ntick 1794900000020\ntick 1794900000040\n";
    line(&why(epoch, "1794900000020"), "after it 2 refused");
    line(
        &why(epoch, "20"),
        "The log ends at 0, in line 1: what came after is not in it.",
    );
}

#[test]
fn a_stop_that_runs() {
    let mut log = format!("{CHARGE}limit 50 0\n");
    for time in (60..1_000).step_by(20) {
        log.push_str(&format!("sample {time} 6000 6000\n"));
    }
    line(&why(&log, "500"), "A stop runs since 50: limit 0 mA is below 6,000; opens at 3050 unless a wave is driven by then.");
    assert!(!why(&log, "45").contains("A stop runs"));
}

/// Where nothing has begun every command says why.
#[test]
fn nothing_has_begun() {
    let log = "begin 1763000000000 32000 0 no\ntick 1763000000020\n";
    let advice = "it looks like milliseconds since 1970 (2025-11-13T02:13:20.000Z): count milliseconds from the post's start";
    for words in [
        &["why", "-", "--at", "5"][..],
        &["why", "-", "--line", "2"],
        &["plot", "-", "-o", "-"],
        &["plot", "-", "-o", "-", "--from", "5"],
    ] {
        let output = tool::run_file(words, log.as_bytes());
        let said = tool::text(&output.stderr);
        assert!(
            output.status.code() == Some(2) && said.contains(advice),
            "{said}"
        );
    }
    let row = answer(&["summary", "-"], log);
    assert!(row.ends_with(" (no begin was accepted)\n"), "{row}");
}

/// Up to a second from one refused time to the next is a step; more is a jump of the clock.
#[test]
fn the_longest_step_of_a_stray_clock() {
    let silence = |step: u64| {
        let refused = format!("tick 2000000000000\ntick {}\n", 2_000_000_000_000 + step);
        answer(&["replay", "-"], &format!("{CHARGE}{refused}")).contains("silence   1 time")
    };
    assert_eq!((silence(100), silence(101)), (false, true));
    assert_eq!((silence(1_000), silence(1_001)), (true, false));
}
