//! How a moment is named: by its list and the post's time, or by the wall's clock; and what is said where it is none.

use tool::{answer, line, run_file, text, why, CHARGE};

mod tool;

/// Two lists whose clocks both start at 0; the second is closed from 140 on.
fn two_lists() -> String {
    let late = "begin 0 32000 3000 no\nlimit 0 32000\nsample 110 9000 9000\nsample 120 9000 9000\nsample 130 6000 -12000\nsample 140 6000 -12000\n";
    format!("{CHARGE}tick 121\n{late}")
}

fn wrong(words: &[&str], log: &str, said: &str) {
    let output = run_file(words, log.as_bytes());
    assert_eq!(output.status.code(), Some(2));
    assert_eq!(text(&output.stdout), "");
    assert_eq!(text(&output.stderr), format!("chuldariin: {said}\n"));
}

#[test]
fn a_list_and_a_time() {
    let log = two_lists();
    let first = why(&log, "1:45");
    line(
        &first,
        "at 1:45: the last accepted call is line 6, sample 6,000 / -12,000 at 1:40, 5 ms before",
    );
    line(&first, "The contactor is closed since line 6, at 1:40.");
    let second = why(&log, "2:45");
    line(
        &second,
        "at 2:45: the last accepted call is line 9, limit 32,000 mA at 2:0",
    );
    assert!(second.contains("contactor open"), "{second}");
    line(
        &why(&log, "2:140"),
        "The contactor is closed since line 13, at 2:140.",
    );
    // A time that only one list has needs no number.
    line(
        &why(&log, "130"),
        "at 2:130: the last accepted call is line 12",
    );
    line(
        &why(&log, "2:500"),
        "The log ends at 2:140, in line 13: what came after is not in it.",
    );
    line(
        &why(&log, "1:500"),
        "List 1 ends at 1:121, in line 7; line 8 begins the next one.",
    );
}

#[test]
fn a_time_that_fits_several_lists() {
    let said = "--at 45: 45 fits 2 lists; expected one of them: 1:45, 2:45";
    wrong(&["why", "-", "--at", "45"], &two_lists(), said);
    let said = "--from 45: 45 fits 2 lists; expected one of them: 1:45, 2:45";
    wrong(&["replay", "-", "--from", "45"], &two_lists(), said);
    wrong(
        &["plot", "-", "-o", "-", "--from", "45"],
        &two_lists(),
        said,
    );
    let many = "begin 0 32000 0 no\ntick 9\n".repeat(12);
    let said =
        "--at 5: 5 fits 12 lists; expected one of them: 1:5, 2:5, 3:5, 4:5, 5:5, 6:5, 7:5, 8:5, ..";
    wrong(&["why", "-", "--at", "5"], &many, said);
}

#[test]
fn moments_that_there_are_not() {
    let log = two_lists();
    for (at, said) in [
        ("3:5", "--at 3:5: the log has no list 3; expected a list from 1 to 2"),
        ("2026-11-16T03:40:00Z", "--at 2026-11-16T03:40:00.000Z: the log does not tell the wall's clock; expected a time of the post's clock, or a line clock TIME DATE in the log"),
    ] {
        wrong(&["why", "-", "--at", at], &log, said);
    }
    let late = log
        .replacen("begin 0", "begin 5", 1)
        .replacen("limit 0", "limit 5", 1);
    wrong(
        &["why", "-", "--at", "1:4"],
        &late,
        "--at 1:4: list 1 begins at 5, in line 1; expected 1:5 or later",
    );
    for word in [
        "0:5",
        "03:45",
        "5:",
        ":5",
        "1:2:3",
        "-5",
        "5 ",
        "1:+5",
        "99999999999:5",
    ] {
        let output = run_file(&["why", "-", "--at", word], log.as_bytes());
        assert_eq!(output.status.code(), Some(2), "{word}");
    }
}

/// Rows of a later list carry its number.
#[test]
fn rows_name_their_list() {
    let shown = answer(&["replay", "-"], &two_lists());
    assert!(
        line(&shown, "6 ").starts_with("   6     40  sample"),
        "{shown}"
    );
    assert!(
        line(&shown, "8 ").starts_with("   8    2:0  begin"),
        "{shown}"
    );
    assert!(
        line(&shown, "13 ").starts_with("  13  2:140  sample"),
        "{shown}"
    );
    line(&shown, "time      1:0 to 2:140 ms, closed for 81 ms");
    assert!(shown.contains("list 2 begins: pause 3,000 ms"), "{shown}");
}

/// The lines of a part, by their numbers.
fn rows(words: &[&str], log: &str) -> Vec<String> {
    let shown = answer(words, log);
    let table = shown.split("\n\nsummary").next().expect("a table");
    table
        .lines()
        .skip(1)
        .map(|row| row[..4].trim().to_string())
        .collect()
}

#[test]
fn a_part_of_a_replay() {
    let log = two_lists();
    assert_eq!(
        rows(&["replay", "-", "--from", "1:30", "--to", "1:40"], &log),
        ["5", "6"]
    );
    assert_eq!(
        rows(&["replay", "-", "--from=1:121", "--to=2:110"], &log),
        ["7", "8", "9", "10"]
    );
    assert_eq!(
        rows(&["replay", "--from", "2:130", "-"], &log),
        ["12", "13"]
    );
    let shown = answer(&["replay", "-", "--to", "1:10"], &log);
    assert!(
        shown.contains("\nsummary of the whole log\n  calls     13: 13 accepted"),
        "{shown}"
    );
    // A call whose time is refused is found by that time.
    let stray = format!("{CHARGE}tick 5\n# on\ntick 50\n");
    let part = |from, to| rows(&["replay", "-", "--from", from, "--to", to], &stray);
    assert_eq!(part("40", "45"), ["6"]);
    assert_eq!(part("5", "9"), ["7", "# on"]);
    let nothing = answer(&["replay", "-", "--from", "41", "--to", "45"], &stray);
    assert!(
        nothing.starts_with("no line of the log lies there\n\nsummary of"),
        "{nothing}"
    );
}

const CLOCK: &str = "clock 10 2026-11-16T03:40:00Z\n";

#[test]
fn the_wall_clock() {
    let log = format!(
        "begin 0 32000 3000 no\nlimit 0 32000\n{CLOCK}{}tick 121\n",
        CHARGE
            .split_once("sample")
            .map_or(String::new(), |rest| format!("sample{}", rest.1))
    );
    let shown = answer(&["replay", "-"], &log);
    assert!(
        shown
            .lines()
            .next()
            .is_some_and(|heading| heading.contains("ms  wall clock                call")),
        "{shown}"
    );
    assert!(
        line(&shown, "2 ").contains("     0                            limit"),
        "{shown}"
    );
    assert!(
        line(&shown, "7 ").contains("  40  2026-11-16T03:40:00.030Z  sample"),
        "{shown}"
    );
    line(
        &shown,
        "time      0 to 121 ms (up to 2026-11-16T03:40:00.111Z), closed for 81 ms",
    );
    for at in [
        "45",
        "2026-11-16T03:40:00.035Z",
        "2026-11-16T04:40:00.035+01:00",
    ] {
        let answer = why(&log, at);
        line(&answer, "at 45 (2026-11-16T03:40:00.035Z): the last accepted call is line 7, sample 6,000 / -12,000 at 40 (2026-11-16T03:40:00.030Z), 5 ms before");
    }
    assert_eq!(
        rows(
            &[
                "replay",
                "-",
                "--from",
                "2026-11-16T03:40:00.020Z",
                "--to",
                "2026-11-16T03:40:00.030Z"
            ],
            &log
        ),
        ["6", "7"]
    );
    let said = "--at 2026-11-16T03:39:59.999Z: the wall's clock is known from 2026-11-16T03:40:00.000Z on, which is 10; expected a later date, or a time of the post's clock";
    wrong(
        &["why", "-", "--at", "2026-11-16T03:39:59.999Z"],
        &log,
        said,
    );
}

/// A clock that is set anew, and one of a later list.
#[test]
fn clocks_of_their_own() {
    let log = format!("{CHARGE}clock 40 2026-11-16T03:40:00Z\ntick 50\nclock 60 2026-11-16T05:00:00Z\ntick 70\nbegin 0 32000 0 no\ntick 10\nclock 10 2026-11-17T00:00:00-02:30\ntick 20\n");
    let shown = answer(&["replay", "-"], &log);
    for (start, wall) in [
        ("8 ", "50  2026-11-16T03:40:00.010Z"),
        ("10 ", "70  2026-11-16T05:00:00.010Z"),
        ("12 ", "2:10                            "),
        ("14 ", "2:20  2026-11-17T00:00:00.010-02:30"),
    ] {
        assert!(line(&shown, start).contains(wall), "{wall}\n{shown}");
    }
    line(
        &why(&log, "2026-11-16T05:00:00.010Z"),
        "at 1:70 (2026-11-16T05:00:00.010Z)",
    );
    line(
        &why(&log, "2026-11-17T02:30:00.005Z"),
        "at 2:15 (2026-11-17T00:00:00.005-02:30)",
    );
}

#[test]
fn a_date_that_is_none() {
    let log = format!("{CHARGE}clock 40 2026-02-30T00:00:00Z\n");
    let output = run_file(&["replay", "-"], log.as_bytes());
    let said = text(&output.stderr);
    assert_eq!(output.status.code(), Some(2));
    assert!(said.ends_with("line 7: DATE '2026-02-30T00:00:00Z': month 2 of 2026 has 28 days; expected clock TIME DATE, with a DATE like 2026-11-16T03:40:00Z\n"), "{said}");
    let output = run_file(
        &["why", "-", "--at", "2026-02-30T00:00:00Z"],
        CHARGE.as_bytes(),
    );
    assert_eq!(output.status.code(), Some(2));
    assert!(text(&output.stderr).starts_with(
        "chuldariin: --at '2026-02-30T00:00:00Z': month 2 of 2026 has 28 days; expected a date"
    ));
}

/// A clock that was set back shows a time twice, and one that was set ahead never shows some.
#[test]
fn a_wall_clock_that_was_set() {
    let log = format!("{CHARGE}clock 40 2026-11-16T03:40:00Z\ntick 100\nclock 100 2026-11-16T03:40:00Z\ntick 150\nclock 200 2026-11-16T04:00:00Z\ntick 250\n");
    let at = "2026-11-16T03:40:00.020Z";
    let said = "--at 2026-11-16T03:40:00.020Z: 2026-11-16T03:40:00.020Z fits 2 moments; expected one of them: 1:60, 1:120";
    wrong(&["why", "-", "--at", at], &log, said);
    let at = "2026-11-16T03:50:00Z";
    let said = "--at 2026-11-16T03:50:00.000Z: the wall's clock never showed that: it was set past it; expected a time of the post's clock";
    wrong(&["why", "-", "--at", at], &log, said);
    line(
        &why(&log, "2026-11-16T04:00:00.050Z"),
        "at 250 (2026-11-16T04:00:00.050Z)",
    );
    // A clock line that names an earlier time than the one before it counts from that one on.
    let late =
        format!("{CHARGE}clock 40 2026-11-16T03:40:00Z\nclock 20 2026-11-16T03:00:00Z\ntick 50\n");
    let shown = answer(&["replay", "-"], &late);
    assert!(
        line(&shown, "9 ").contains("50  2026-11-16T03:00:00.030Z"),
        "{shown}"
    );
    line(
        &why(&late, "2026-11-16T03:00:00.030Z"),
        "at 50 (2026-11-16T03:00:00.030Z)",
    );
}

/// A time between two lists on one clock is of the first.
#[test]
fn between_two_lists() {
    let log = format!("{CHARGE}begin 1000 32000 0 no\ntick 1010\n");
    let answer = why(&log, "500");
    line(
        &answer,
        "at 1:500: the last accepted call is line 6, sample 6,000 / -12,000 at 1:40, 460 ms before",
    );
    line(
        &answer,
        "List 1 ends at 1:40, in line 6; line 7 begins the next one.",
    );
    // The log says nothing of that time.
    assert!(!answer.contains("No accepted call"), "{answer}");
    line(
        &why(&log, "1000"),
        "at 2:1000: the last accepted call is line 7",
    );
    // A refused call is later than the next begin: that is another clock.
    let anew = format!("{CHARGE}limit 5000 80001\nbegin 1000 32000 0 no\ntick 1010\n");
    let said = "--at 1005: 1005 fits 2 lists; expected one of them: 1:1005, 2:1005";
    wrong(&["why", "-", "--at", "1005"], &anew, said);
}

#[test]
fn a_line_that_the_log_does_not_have() {
    let answer = |line| text(&run_file(&["why", "-", "--line", line], CHARGE.as_bytes()).stdout);
    line(
        &answer("999"),
        "at line 999: the last accepted call is line 6",
    );
    line(&answer("999"), "The log's last call is line 6.");
    assert!(!answer("6").contains("The log's last call"));
}

/// A part that starts before the log does starts with it, in the replay as in the picture.
#[test]
fn a_part_from_before_the_first_begin() {
    let late = CHARGE.replace(" 0 32000", " 5 32000");
    let part = ["replay", "-", "--from", "0", "--to", "10"];
    assert_eq!(rows(&part, &late), ["1", "2", "3"]);
    let svg = answer(
        &["plot", "-", "-o", "-", "--from", "0", "--to", "10"],
        &late,
    );
    assert!(svg.contains(">3 calls, 5 to 10 ms:"), "{svg}");
}
