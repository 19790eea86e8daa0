//! What a line tells of a call.

use tool::{answer, line, without_silence, CHARGE, PLUGGED};

mod tool;

fn replayed(log: &str) -> String {
    answer(&["replay", "-"], log)
}

/// The changes of a log, and which of its lines they are.
fn changes(log: &str) -> (String, Vec<String>) {
    let answer = answer(&["replay", "-", "--only", "changes"], log);
    let table = answer.split("\n\nsummary").next().expect("a table");
    let rows = table.lines().skip(1);
    let numbers = rows.map(|row| row[..4].trim().to_string()).collect();
    (answer, numbers)
}

/// What the line with this start tells after a charge and these calls.
fn ends_with(calls: &str, start: &str, note: &str) {
    let answer = replayed(&format!("{CHARGE}{calls}"));
    let row = line(&answer, start);
    assert!(without_silence(row).ends_with(note), "{row}");
}

#[test]
fn rare_calls() {
    for (calls, start, note) in [
        ("sample 50 7500 -12000\nsample 60 1500 -12000\n", "8 ", "high 7,500 mV at 50 is not below 7,500, high 1,500 mV at 60 is not above 1,500 (i)"),
        ("sample 50 7499 -10999\nsample 60 1501 -13001\n", "8 ", "low -10,999 mV at 50 and -13,001 mV at 60 are outside -13,000 to -11,000 (i)"),
        ("sample 50 7600 -12000\nsample 60 6000 -10900\n", "8 ", "high 7,600 mV at 50 is not below 7,500, low -10,900 mV at 60 is outside -13,000 to -11,000 (i)"),
        ("begin 50 5999 999 no\n", "7 ", "  REFUSED 1: rated 5,999 mA is not 6,000 to 80,000, pause 999 ms is neither 0 nor 1,000 to 60,000"),
        ("begin 50 80001 0 no\n", "7 ", "  REFUSED 1: rated 80,001 mA is not 6,000 to 80,000"),
        ("begin 50 80000 60001 no\n", "7 ", "  REFUSED 1: pause 60,001 ms is neither 0 nor 1,000 to 60,000"),
        ("sample 50 6000 -20000\n", "7 ", "REFUSED 5: reading 129 is -20,000 mV, where -15,000 to 15,000 are allowed"),
        ("measure 50 31000 35179 0\n", "7 ", "over-run starts: 35,179 mA on line 2 is above 35,178 (1.1 x 31,980); fault 2 at 5050 unless it ends or the duty is lowered"),
        ("measure 50 9 36000 36000\n", "7 ", "over-run starts: 36,000 mA on line 2 is above 35,178 (1.1 x 31,980); fault 2 at 5050 unless it ends or the duty is lowered"),
        ("measure 50 0 0 200001\n", "7 ", "REFUSED 7: 200,001 mA on line 3: a measured current is at most 200,000 mA; is the meter's unit milliamps?"),
        ("measure 50 300000 1 200001\n", "7 ", "REFUSED 7: 300,000 mA on line 1, 200,001 mA on line 3: a measured current is at most 200,000 mA; is the meter's unit milliamps?"),
        ("measure 50 200001\n", "7 ", "REFUSED 7: a measured current is at most 200,000 mA; is the meter's unit milliamps?"),
        ("limit 50 80001\n", "7 ", "REFUSED 13: a limit is at most 80,000 mA, so 32,000 mA stays; is the load manager's unit milliamps?"),
        ("limit 39 80001\n", "7 ", "REFUSED 2: time 39 is before the last accepted call, at 40"),
        ("limit 1000000000001 80001\n", "7 ", "REFUSED 3: the time is above 1,000,000,000,000 ms; it looks like milliseconds since 1970 (2001-09-09T01:46:40.001Z): count milliseconds from the post's start"),
        ("window 50 1 2\n", "7 ", "REFUSED 4: 2 readings, where 256 to 1,024 are allowed"),
    ] {
        ends_with(calls, start, note);
    }
    let answer = replayed(&format!(
        "{PLUGGED}sample 30 9000 9000\nsample 40 9000 9000\n"
    ));
    let note =
        "fault 1 (no diode): low 9,000 mV at 30 and 9,000 mV at 40 are outside -13,000 to -11,000";
    assert!(line(&answer, "6 ").ends_with(note), "{answer}");
}

/// The summary counts the meter's and the load manager's for themselves.
#[test]
fn limit_and_measure_are_counted_separately() {
    let refused = "limit 50 80001\nlimit 50 4294967295\nmeasure 50 200001\nmeasure 50 0 0 4294967295\nlimit 50 160000\n";
    let shown = replayed(&format!("{CHARGE}{refused}"));
    for row in [
        "  refusals  5",
        "          2  7     a measured current too large: the meter, or its scaling",
        "          3  13    a limit too large: the load manager, or its scaling",
    ] {
        assert!(shown.lines().any(|shown| shown == row), "{row}\n{shown}");
    }
}

/// What a duty that is lowered, raised or told again makes of an over-run.
#[test]
fn an_over_run_under_another_duty() {
    for (calls, start, note) in [
        ("limit 60 16000\n", "8 ", "over-run restarts, 10 ms old: the duty is lowered from 53.3 % to 26.6 %; fault 2 at 5060 unless it ends or the duty is lowered"),
        ("limit 60 32000\n", "8 ", "  1"),
        ("limit 60 31980\n", "8 ", "  1"),
        ("limit 60 16000\nlimit 70 10000\n", "9 ", "over-run restarts, 10 ms after its restart (it began at 50): the duty is lowered from 26.6 % to 16.6 %; fault 2 at 5070 unless it ends or the duty is lowered"),
        ("limit 60 16000\nlimit 70 20000\n", "9 ", "over-run runs on, 10 ms after its restart (it began at 50): the duty is raised from 26.6 % to 33.3 %; fault 2 at 5060 unless it ends or the duty is lowered"),
        ("limit 60 16000\nmeasure 70 0\n", "9 ", "over-run ends, 10 ms after its restart (it began at 50)"),
        ("measure 60 0\nmeasure 70 40000\nlimit 80 16000\nlimit 90 0\n", "11 ", "over-run ends, 10 ms after its restart (it began at 70); stop starts: limit 0 mA is below 6,000; opens at 3090 unless a wave is driven by then"),
        ("limit 60 16000\ntick 5060\n", "9 ", "fault 2 (over-current): the over-run restarted 5,000 ms ago, at 60, when the duty was lowered; it began at 50"),
        ("measure 60 0\nlimit 70 16000\n", "9 ", "  1"),
        // Lowered in the very ms of its start; and by a call that opens.
        ("limit 50 16000\nmeasure 60 0\n", "9 ", "over-run ends, 10 ms old"),
        ("limit 121 16000\n", "8 ", "<< OPENED: 81 ms since the last sound sample (ii); over-run ends, 71 ms old"),
    ] {
        ends_with(&format!("measure 50 35179\n{calls}"), start, note);
    }
}

/// The currents of a reply have a column if a measure has one for each line.
#[test]
fn a_column_for_three_lines() {
    let one = replayed(&format!("{CHARGE}measure 50 31000\ntick 60\n"));
    assert!(!one.contains("lines 1, 2, 3"), "{one}");
    let log = format!("{CHARGE}measure 50 1000 20000 0\ntick 60\nmeasure 70 5\nmeasure 80 0 0 200001\nbegin 90 1 0 no\n");
    let three = replayed(&log);
    let heading = three.lines().next().expect("a heading");
    let column = heading.find("lines 1, 2, 3 (mA)").expect("a column");
    for (start, shown) in [
        ("6 ", "0 0 0  "),
        ("7 ", "1,000 20,000 0"),
        ("8 ", "1,000 20,000 0"),
        ("9 ", "5 0 0"),
        ("10 ", "5 0 0  "),
        ("11 ", "-  "),
    ] {
        let row = line(&three, start);
        assert!(row[column..].starts_with(shown), "{row}");
        assert_eq!(row.trim_end(), row);
    }
}

#[test]
fn currents_alone_are_no_change() {
    let log = format!("{CHARGE}measure 50 1 2 3\nmeasure 60 4 5 6\ntick 121\n");
    let (answer, shown) = changes(&log);
    assert_eq!(shown, ["1", "4", "6", "9"]);
    assert!(line(&answer, "9 ").contains("  4 5 6  "), "{answer}");
}

#[test]
fn a_comment_can_do_no_harm() {
    let answer = replayed("begin 0 32000 0 no\n# \u{1b}[2J away\n");
    assert!(!answer.contains('\u{1b}') && answer.contains("[2J away"));
}

#[test]
fn a_refused_begin_changes_nothing() {
    let log = format!("{CHARGE}begin 50 1 0 no\ntick 60\n");
    assert_eq!(changes(&log).1, ["1", "4", "6", "7"]);
}

#[test]
fn closings_just_the_pause_apart() {
    let again = "fault 40 3\nclear 40\nsample 50 9000 9000\nsample 60 9000 9000\nsample 3030 6000 -12000\nsample 3040 6000 -12000\n";
    let answer = replayed(&format!("{CHARGE}{again}"));
    line(&answer, "spacing   shortest time between two closings 3,000 ms (at 40 and 3040); the pause is 3,000 ms: kept");
}

#[test]
fn the_greater_half_is_the_high_level() {
    let answer = replayed(&format!(
        "{CHARGE}sample 50 -12000 6000\nsample 60 -12000 9000\n"
    ));
    assert!(
        line(&answer, "7 ").contains("sample -12,000 / 6,000    C proven"),
        "{answer}"
    );
    assert!(line(&answer, "8 ").contains("B unsound"), "{answer}");
}

/// Equal refusals of different calls are different changes.
#[test]
fn equal_refusals_of_other_calls() {
    let (_, rows) = changes(&format!(
        "{CHARGE}limit 39 1\nlimit 38 1\ntick 38\ntick 37\n"
    ));
    assert_eq!(rows, ["1", "4", "6", "7", "9"]);
}
