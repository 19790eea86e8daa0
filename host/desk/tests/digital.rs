//! What is told of a digital post: its grant, its stops and over-runs, and the refusals of a link call.

use tool::{answer, line, run, text, without_silence, CHARGE};

mod tool;

/// B2 at 20, without a grant.
const PLUGGED: &str =
    "begin 0 32000 3000 no digital\nlimit 0 32000\nsample 10 9000 9000\nsample 20 9000 9000\n";
/// And closed at 40, in line 7.
const GRANTED: &str = "link 25 16000\nsample 30 6000 -12000\nsample 40 6000 -12000\n";
/// A1 at 20.
const EMPTY: &str =
    "begin 0 32000 3000 no digital\nlimit 0 32000\nsample 10 12000 12000\nsample 20 12000 12000\n";

fn replayed(log: &str) -> String {
    answer(&["replay", "-"], log)
}

fn why(log: &str, at: &str) -> String {
    answer(&["why", "-", "--at", at], log)
}

/// What the last call's line tells.
fn told(log: &str, words: &str) {
    let answer = replayed(log);
    let number = log.lines().count().to_string();
    let row = line(&answer, &format!("{number} "));
    assert!(without_silence(row).ends_with(words), "{words}\n{row}");
}

/// The same after a charge has begun.
fn charging(calls: &str, words: &str) {
    told(&format!("{PLUGGED}{GRANTED}{calls}"), words);
}

/// Sound samples of a steady wave, 80 ms apart, up to a time.
fn steady(from: u64, to: u64) -> String {
    let times = (from..=to).step_by(80);
    times
        .map(|time| format!("sample {time} 6000 6000\n"))
        .collect()
}

#[test]
fn its_begin_and_its_closing() {
    let begins = "a new list begins: pause 3,000 ms, no ventilation";
    told(
        "begin 0 32000 3000 no digital\n",
        &format!("{begins}, digital post"),
    );
    told("begin 0 32000 3000 no plain\n", begins);
    charging(
        "",
        ">> CLOSED: proven in C at 30 and 40; not opened since begin; grant 16,000 mA",
    );
    let shown = replayed(&format!("{PLUGGED}{GRANTED}"));
    assert!(
        line(&shown, "4 ").contains("B2     5.0 %             open"),
        "{shown}"
    );
    assert!(line(&shown, "5 ").contains("  link 16,000 mA  "), "{shown}");
    assert!(line(&shown, "6 ").contains("  C proven  "), "{shown}");
}

#[test]
fn a_stop_names_what_is_too_low() {
    let until = "; opens at 3050 unless a wave is driven by then";
    for (calls, words) in [
        (
            "link 50 5999\n",
            "stop starts: grant 5,999 mA is below 6,000",
        ),
        (
            "limit 50 5999\n",
            "stop starts: limit 5,999 mA is below 6,000",
        ),
        (
            "limit 50 0\nlink 60 0\n",
            "stop runs on, 10 ms old: limit 0 mA is below 6,000, and grant 0 mA is below 6,000",
        ),
        (
            "link 50 0\nlimit 60 0\n",
            "stop runs on, 10 ms old: limit 0 mA is below 6,000, and grant 0 mA is below 6,000",
        ),
        (
            "limit 50 0\nlink 60 0\nlimit 70 32000\n",
            "stop runs on, 20 ms old: grant 0 mA is below 6,000",
        ),
    ] {
        charging(calls, &format!("{words}{until}"));
    }
    charging("link 50 0\nlink 60 6000\n", "stop ends, 10 ms old");
    charging(
        "link 50 0\nlimit 60 0\nlimit 70 32000\nlink 80 6000\n",
        "stop ends, 30 ms old",
    );
    // Another grant that is too low is no other reason; enough of it starts no stop.
    charging("link 50 0\nlink 60 5999\n", "  1       5,999");
    charging("link 50 6000\n", "  1       6,000");
}

#[test]
fn an_opening_for_want_of_a_grant() {
    let stop = format!("link 50 0\n{}", steady(90, 3_049));
    charging(
        &format!("{stop}tick 3050\n"),
        "<< OPENED: the stop began 3,000 ms ago, at 50, and grant 0 mA is below 6,000 (iv)",
    );
    let again = "the wave is driven again: the contactor is open, and the van may negotiate";
    charging(&format!("{stop}tick 3050\ntick 3060\n"), again);
    charging(
        &format!("{stop}tick 3050\ntick 3060\ntick 3070\n"),
        "  1           0",
    );
    // A limit that is too low as well holds it back, and its return is no wonder.
    charging(
        &format!("{stop}tick 3050\nlimit 3060 0\nlimit 3070 32000\n"),
        "  1           0",
    );
    let both = format!("limit 50 0\nlink 60 0\n{}", steady(90, 3_049));
    charging(
        &format!("{both}tick 3050\n"),
        "at 50, and limit 0 mA is below 6,000, and grant 0 mA is below 6,000 (iv)",
    );
    // With a fault it is -12 V, and a cleared one leaves no state settled.
    charging(
        "link 50 0\nfault 60 3\n",
        "<< OPENED: fault: residual current (v); stop ends, 10 ms old",
    );
    charging("link 50 0\nfault 60 3\nclear 70\n", "  1           0");
}

#[test]
fn an_over_run_is_judged_against_the_least() {
    for (calls, words) in [
        (
            "measure 50 17601\n",
            "17,601 mA is above 17,600 (1.1 x 16,000, the grant)",
        ),
        (
            "limit 45 10000\nmeasure 50 11001\n",
            "11,001 mA is above 11,000 (1.1 x 10,000, the limit)",
        ),
        (
            "limit 45 80000\nlink 45 80000\nmeasure 50 0 35201 0\n",
            "35,201 mA on line 2 is above 35,200 (1.1 x 32,000, the rated current)",
        ),
        (
            "limit 45 16000\nmeasure 50 17601\n",
            "17,601 mA is above 17,600 (1.1 x 16,000, the grant and the limit)",
        ),
        (
            "link 45 32000\nmeasure 50 35201\n",
            "35,201 mA is above 35,200 (1.1 x 32,000, the grant, the rated current and the limit)",
        ),
    ] {
        let log = format!("{PLUGGED}{GRANTED}{calls}");
        let row = format!("over-run starts: {words}; fault 2 at 5050 unless it ends");
        assert!(
            replayed(&log).contains(&format!("{row}\n")),
            "{row}\n{}",
            replayed(&log)
        );
        let last = "An over-run runs since 50: fault 2 at 5050 unless it ends.";
        assert_eq!(why(&log, "50").lines().last(), Some(last));
    }
    charging("measure 50 17600\n", "  1      16,000");
}

#[test]
fn nothing_restarts_its_over_run() {
    charging("measure 50 17601\nlink 60 6000\n", "  1       6,000");
    charging("measure 50 17601\nlimit 60 6000\n", "  1      16,000");
    charging(
        "measure 50 17601\nlink 60 6000\nmeasure 70 6600\n",
        "over-run ends, 20 ms old",
    );
    charging(
        "measure 50 17601\nlink 60 0\n",
        "over-run ends, 10 ms old; stop starts: grant 0 mA is below 6,000; opens at 3060 unless a wave is driven by then",
    );
    charging(
        "measure 50 17601\nlink 60 6000\ntick 5050\n",
        "fault 2 (over-current): the over-run began 5,000 ms ago, at 50",
    );
}

#[test]
fn settled_a_takes_the_grant() {
    charging(
        "sample 50 12000 -12000\nsample 60 12000 -12000\n",
        "are not below 7,500 (i); the grant of 16,000 mA is set to 0: A is settled",
    );
    let not_kept = "accepted, but the grant is 0: A is settled (tell it when B is)";
    told(&format!("{EMPTY}link 30 16000\n"), not_kept);
    told(&format!("{EMPTY}link 30 16000\nlink 40 6000\n"), not_kept);
    told(&format!("{EMPTY}link 30 0\n"), "  0           0");
    // Before A is settled, and in U, it is kept.
    told(
        "begin 0 32000 3000 no digital\nlink 10 16000\n",
        "  0      16,000",
    );
}

#[test]
fn refused_link_calls() {
    let large = "REFUSED 11: a grant is at most 80,000 mA; is the link's unit milliamps?";
    let plain = "REFUSED 12: a plain post takes no grant: begin it digital, or leave the link out";
    charging("link 50 80001\n", large);
    charging("link 50 80000\n", "  1      80,000");
    charging(
        "link 39 80001\n",
        "REFUSED 2: time 39 is before the last accepted call, at 40",
    );
    told(&format!("{CHARGE}link 50 16000\n"), plain);
    told(&format!("{CHARGE}link 50 80001\n"), plain);
    told(
        "begin 0 1 0 no digital\nlink 0 16000\n",
        "REFUSED 1: no begin has been accepted yet",
    );
    let shown = replayed(&format!(
        "{PLUGGED}link 30 80001\nbegin 40 32000 0 no\nlink 50 6000\nlink 60 6000\n"
    ));
    for row in [
        "  refusals  3",
        "          1  11    a grant too large: the link, or its scaling",
        "          2  12    a link call to a plain post",
    ] {
        assert!(shown.lines().any(|shown| shown == row), "{row}\n{shown}");
    }
}

/// The grant has a column if a begin is digital; a plain list has none.
#[test]
fn a_column_for_the_grant() {
    assert!(!replayed(CHARGE).contains("grant"));
    let log = format!("{CHARGE}begin 50 32000 3000 no digital\nlink 60 16000\nlink 70 80001\nbegin 80 1 0 no\nmeasure 90 1 2 3\n");
    let shown = replayed(&log);
    let heading = shown.lines().next().expect("a heading");
    let column = heading
        .find("  grant (mA)  lines 1, 2, 3 (mA)")
        .expect("a column");
    for (start, grant) in [
        ("6 ", "-  0 0 0"),
        ("7 ", "0  0 0 0"),
        ("8 ", "16,000  0 0 0"),
        ("9 ", "16,000  0 0 0"),
        ("10 ", "-  -"),
        ("11 ", "16,000  1 2 3"),
    ] {
        let row = line(&shown, start);
        assert!(row[column..].trim_start().starts_with(grant), "{row}");
    }
}

/// The reply does not show the grant, and its changes are shown all the same.
#[test]
fn another_grant_is_a_change() {
    let log = format!("{PLUGGED}link 30 16000\nlink 40 16000\nlink 50 6000\ntick 60\n");
    let shown = answer(&["replay", "-", "--only", "changes"], &log);
    let table = shown.split("\n\nsummary").next().expect("a table");
    let rows = table.lines().skip(1).map(|row| row[..4].trim());
    assert_eq!(rows.collect::<Vec<_>>(), ["1", "4", "5", "7"]);
}

#[test]
fn a_mark_that_is_none() {
    let output = run(&["replay", "-"], b"begin 0 32000 0 no digitl\n");
    let said = "chuldariin: standard input: line 1: 'digitl' is neither digital nor plain; \
                expected begin TIME RATED PAUSE yes|no [digital|plain]\n";
    assert_eq!(
        (output.status.code(), text(&output.stderr).as_str()),
        (Some(2), said)
    );
}
