//! What the post recorded, held against what is commanded: told replies, the auxiliary contact, the panel.

use tool::{answer, line, run_file, text, why, CHARGE};

mod tool;

fn replayed(calls: &str) -> String {
    answer(&["replay", "-"], &format!("{CHARGE}{calls}"))
}

fn changes(calls: &str) -> String {
    answer(
        &["replay", "-", "--only", "changes"],
        &format!("{CHARGE}{calls}"),
    )
}

#[test]
fn a_reply_that_was_told_as_commanded() {
    for told in [
        "told C2 533 closed 0 1",
        "told C2 533 closed 0 1 0 0 0",
        "told - - - - -",
        "told - - closed - - - - -",
    ] {
        let shown = replayed(&format!("{told}\ntick 50\n"));
        assert!(!shown.contains("DIFFERS"), "{told}\n{shown}");
        line(
            &shown,
            "told      1 reply, of which 0 DIFFER from what is commanded",
        );
    }
}

#[test]
fn each_difference_is_marked_and_counted() {
    for (told, words) in [
        ("told C1 533 closed 0 1", "state C1, commanded C2"),
        ("told U 533 closed 0 1", "state U, commanded C2"),
        ("told C2 266 closed 0 1", "wave 26.6 % = 15.96 A, commanded 53.3 % = 31.98 A"),
        ("told C2 533 open 0 1", "contactor open, commanded closed"),
        ("told C2 533 closed 3 1", "fault residual current, commanded none"),
        ("told C2 533 closed 9 1", "fault 9, commanded none"),
        ("told C2 533 closed 0 2", "closings 2, commanded 1"),
        ("told - - - - - 1 0 -", "line 1: 1 mA, commanded 0 mA"),
        ("told F 0 open 5 0 0 7 0", "state F, commanded C2; wave -12 V, commanded 53.3 % = 31.98 A; contactor open, commanded closed; fault over-temperature, commanded none; closings 0, commanded 1; line 2: 7 mA, commanded 0 mA"),
    ] {
        let shown = replayed(&format!("{told}\n"));
        assert!(line(&shown, "7     40  told").ends_with(&format!("!! DIFFERS: told {words}")), "{shown}");
    }
    let shown = changes("told C2 533 open 0 1\nsample 50 6000 -12000\ntold C2 533 closed 0 2\nsample 60 6000 -12000\ntold C2 533 open 0 2\nsample 70 6000 -12000\ntold C2 533 closed 0 1\n");
    line(
        &shown,
        "told      4 replies, of which 3 DIFFER from what is commanded: contactor 2, closings 2",
    );
    assert_eq!(shown.matches("DIFFERS").count(), 3, "{shown}");
}

/// Beside a refusal stands the controller as it was, and beside a refused begin nothing.
#[test]
fn told_behind_refused_calls() {
    let shown =
        replayed("limit 50 80001\ntold C2 533 closed 0 1\nbegin 60 1 0 no\ntold U 0 open 0 0\n");
    line(&shown, "told      1 reply, of which 0 DIFFER");
    assert!(
        line(&shown, "10 ").contains("nothing was commanded by a refused begin"),
        "{shown}"
    );
}

#[test]
fn told_lines_that_are_wrong() {
    for (told, said) in [
        ("tick 50\ntold C2 533 closed 0\n", "line 8: CLOSINGS is missing; expected told STATE WAVE open|closed FAULT CLOSINGS [L1 L2 L3]"),
        ("tick 50\ntold C3 533 closed 0 1\n", "line 8: 'C3' is no STATE;"),
        ("tick 50\ntold U1 533 closed 0 1\n", "line 8: 'U1' is no STATE;"),
        ("tick 50\ntold C2 53.3 closed 0 1\n", "line 8: '53.3' is no WAVE;"),
        ("tick 50\ntold C2 533 shut 0 1\n", "line 8: 'shut' is no open|closed;"),
        ("tick 50\ntold C2 533 closed 256 1\n", "line 8: '256' is no FAULT;"),
        ("tick 50\ntold C2 533 closed 0 1 2 3\n", "line 8: L3 is missing;"),
        ("tick 50\ntold C2 533 closed 0 1 2 3 4 5\n", "line 8: '5' is one value too many;"),
        ("tick 50\ntold - - - - -\ntold - - - - -\n", "line 9: told without its call; expected one told behind the call whose reply it tells"),
        ("contact 50 shut\n", "line 7: 'shut' is neither open nor closed; expected contact TIME open|closed"),
        ("contact 50\n", "line 7: open|closed is missing;"),
        ("panel 50\n", "line 7: TEXT is missing; expected panel TIME TEXT"),
        ("travel 99\n", "line 7: MS 99 is below 100; expected travel MS, 100 or more"),
    ] {
        let output = run_file(&["replay", "-"], format!("{CHARGE}{told}").as_bytes());
        assert_eq!(output.status.code(), Some(2), "{told}");
        assert!(text(&output.stderr).contains(said), "{said}\n{}", text(&output.stderr));
    }
}

/// Samples from 50 on, every 20 ms, with lines between them.
fn charging(until: u64, lines: &[(u64, &str)]) -> String {
    let mut log = String::new();
    for time in (50..=until).step_by(20) {
        for (_, line) in lines
            .iter()
            .filter(|line| line.0 < time && line.0 + 20 >= time)
        {
            log.push_str(&format!("{line}\n"));
        }
        log.push_str(&format!("sample {time} 6000 -12000\n"));
    }
    log
}

#[test]
fn a_contact_that_follows() {
    let log = charging(400, &[(139, "contact 139 closed")]);
    let shown = replayed(&format!("contact 35 open\n{log}"));
    line(
        &shown,
        "contact   2 reports; moved BY ITSELF never; WELDED never; NOT CLOSING never",
    );
    assert!(!shown.contains("!!"), "{shown}");
    // It has just 100 ms; a contact that never was reported is not judged.
    assert!(!replayed(&charging(400, &[])).contains("contact  "));
}

#[test]
fn a_contact_that_does_not_close() {
    // Commanded closed at 40; at 150 the next call finds it open.
    let shown = changes(&format!(
        "contact 35 open\n{}",
        charging(400, &[(300, "contact 300 closed")])
    ));
    assert!(
        line(&shown, "13    150  sample")
            .ends_with("!! contact NOT CLOSING: open for 110 ms, commanded closed since 40"),
        "{shown}"
    );
    assert!(
        shown.contains("contact closed")
            && shown.contains("!! contact was NOT CLOSING for 260 ms, from 40 on"),
        "{shown}"
    );
    line(&shown, "contact   2 reports; moved BY ITSELF never; WELDED never; NOT CLOSING 1 time, the longest 260 ms");
    // One that never comes is told up to the end of the log.
    let shown = changes(&format!("contact 35 open\n{}", charging(400, &[])));
    line(&shown, "contact   1 report; moved BY ITSELF never; WELDED never; NOT CLOSING 1 time, the longest 350 ms");
}

#[test]
fn a_welded_contact() {
    let welded = "contact 45 closed\ntick 121\ntick 221\ntick 222\ntick 500\n";
    let shown = replayed(welded);
    assert!(
        line(&shown, "10    222  tick")
            .ends_with("!! contact WELDED: closed for 101 ms, commanded open since 121"),
        "{shown}"
    );
    assert_eq!(shown.matches("WELDED:").count(), 1);
    line(&shown, "contact   1 report; moved BY ITSELF never; WELDED 1 time, the longest 379 ms; NOT CLOSING never");
    // Late by a report of its own.
    let shown = replayed("contact 45 closed\ntick 121\ncontact 222 open\n");
    assert!(
        line(&shown, "9    222  contact open")
            .ends_with("!! contact was WELDED for 101 ms, from 121 on"),
        "{shown}"
    );
    let shown = replayed("contact 45 closed\ntick 121\ncontact 221 open\n");
    assert!(!shown.contains("!!"), "{shown}");
}

/// A slower contactor says so.
#[test]
fn a_contact_with_more_time() {
    let shown = replayed("travel 250\ncontact 45 closed\ntick 121\ntick 371\ncontact 371 open\n");
    assert!(
        !shown.contains("WELDED:") && !shown.contains("was WELDED"),
        "{shown}"
    );
    let shown = replayed("travel 250\ncontact 45 closed\ntick 121\ntick 372\n");
    assert!(
        shown.contains("!! contact WELDED: closed for 251 ms, commanded open since 121"),
        "{shown}"
    );
}

#[test]
fn a_contact_that_moves_by_itself() {
    let chatter = charging(
        600,
        &[
            (45, "contact 45 closed"),
            (301, "contact 301 open"),
            (331, "contact 331 closed"),
        ],
    );
    let shown = changes(&chatter);
    assert!(
        shown.contains("!! contact open BY ITSELF, commanded closed since 40"),
        "{shown}"
    );
    assert!(!shown.contains("NOT CLOSING:"), "{shown}");
    line(
        &shown,
        "contact   3 reports; moved BY ITSELF 1 time; WELDED never; NOT CLOSING never",
    );
    // Right after its command a contact may bounce.
    let bounce = charging(
        600,
        &[
            (45, "contact 45 closed"),
            (61, "contact 61 open"),
            (71, "contact 71 closed"),
        ],
    );
    assert!(!changes(&bounce).contains("!!"));
}

/// A new list commands open, on the old clock or on a new one.
#[test]
fn a_contact_across_a_begin() {
    let shown = replayed("contact 45 closed\nbegin 60 32000 0 no\ntick 160\ntick 161\n");
    assert!(
        line(&shown, "10  2:161")
            .ends_with("!! contact WELDED: closed for 101 ms, commanded open since 60"),
        "{shown}"
    );
    let shown = replayed("contact 45 closed\nbegin 5 32000 0 no\ntick 105\ntick 106\n");
    assert!(
        line(&shown, "10  2:106")
            .ends_with("!! contact WELDED: closed for 101 ms, commanded open since 5"),
        "{shown}"
    );
}

#[test]
fn the_panel() {
    let log = format!("panel 40 charging   # as the driver reads it\n{}tick 200\npanel 250 charging\npanel 300  thank   you \ntick 400\n", charging(100, &[]));
    let shown = changes(&log);
    assert!(
        line(&shown, "7     40  panel charging")
            .trim_end()
            .ends_with("panel charging"),
        "{shown}"
    );
    assert_eq!(
        shown.matches("panel charging").count(),
        1,
        "a text that stands there is no change"
    );
    // Closed up to 200, open from there on.
    line(
        &shown,
        "panel     \"charging\" for 260 ms; of it 100 ms with the contactor commanded open",
    );
    line(
        &shown,
        "panel     \"thank   you\" for 100 ms; of it 100 ms with the contactor commanded open",
    );
}

#[test]
fn why_has_what_was_recorded() {
    let log = format!("{CHARGE}contact 45 open\npanel 46 charging\ntick 60\ntick 120\nsample 121 6000 -12000\ntick 141\n");
    let answer = why(&log, "141");
    line(
        &answer,
        "recorded: contact open since 45, panel \"charging\" since 46",
    );
    let answer = why(
        &format!("{log}sample 150 6000 -12000\nsample 160 6000 -12000\n"),
        "141",
    );
    line(&answer, "recorded: contact open since 45");
    assert!(!why(&log, "40").contains("recorded"));
    let closed = format!("{CHARGE}contact 45 open\n{}", charging(200, &[]));
    line(
        &why(&closed, "190"),
        "The contact is NOT CLOSING: open since 45, commanded closed since 40.",
    );
}

/// Records change nothing of what the controller is told.
#[test]
fn records_go_to_no_controller() {
    let plain = replayed(&charging(400, &[]));
    let recorded = replayed(&charging(
        400,
        &[
            (100, "contact 100 closed"),
            (200, "panel 200 on"),
            (300, "clock 300 2026-11-16T03:40:00Z"),
            (350, "travel 200"),
        ],
    ));
    let rows = |shown: &str| -> Vec<String> {
        let calls = shown.lines().filter(|row| row.contains("sample 6,000"));
        calls
            .map(|row| row.split("sample 6,000").nth(1).unwrap_or("").to_string())
            .collect()
    };
    assert_eq!(rows(&plain), rows(&recorded));
}

/// The ticket of the post that burnt its contact away.
#[test]
fn the_chattering_post() {
    let path = concat!(env!("CARGO_MANIFEST_DIR"), "/../../examples/chattering.log");
    let log = std::fs::read_to_string(path).expect("the example");
    let shown = answer(&["replay", "-", "--only", "changes"], &log);
    for row in [
        "closings  1",
        "told      33 replies, of which 20 DIFFER from what is commanded: contactor 20",
        "contact   19 reports; moved BY ITSELF 9 times; WELDED never; NOT CLOSING 1 time, the longest 3,012 ms",
    ] {
        line(&shown, row);
    }
    assert!(
        line(&shown, "panel     \"charging\" for").ends_with("ms with the contact open"),
        "{shown}"
    );
}

/// `why` has what was recorded by then, and nothing of later.
#[test]
fn why_knows_no_later_record() {
    let log =
        format!("{CHARGE}contact 60 closed\n# a remark\npanel 70 on\ntick 80\ncontact 50 open\n");
    let answer = why(&log, "50");
    line(&answer, "recorded: contact open since 50");
    assert!(
        !answer.contains("since 60") && !answer.contains("panel"),
        "{answer}"
    );
    line(&why(&log, "60"), "recorded: contact closed since 60");
    line(
        &why(&log, "70"),
        "recorded: contact closed since 60, panel \"on\" since 70",
    );
    let by_line = |number: &str| answer_line(&log, number);
    assert!(!by_line("6").contains("recorded"));
    line(&by_line("7"), "recorded: contact closed since 60");
    assert!(!by_line("8").contains("panel"));
}

fn answer_line(log: &str, number: &str) -> String {
    answer(&["why", "-", "--line", number], log)
}

/// A moment between two calls has its own time.
#[test]
fn a_contact_that_fails_between_two_calls() {
    let log = format!("{CHARGE}contact 45 open\ntick 60\ntick 120\nsample 121 6000 -12000\nsample 200 6000 -12000\n");
    assert!(!why(&log, "145").contains("NOT CLOSING"));
    line(
        &why(&log, "146"),
        "The contact is NOT CLOSING: open since 45, commanded closed since 40.",
    );
}

/// What the contact's line says counts, and a report does not move the clock of the calls.
#[test]
fn records_of_another_clock() {
    let shown = replayed(
        "contact 45 closed\ncontact 50000 closed\nfault 100 3\ntick 110\ntick 201\ntick 215\n",
    );
    assert!(
        line(&shown, "8 ")
            .ends_with("!! its time is 49,960 ms after the last call's: is it of another clock?"),
        "{shown}"
    );
    assert!(
        line(&shown, "11    201")
            .ends_with("!! contact WELDED: closed for 101 ms, commanded open since 100"),
        "{shown}"
    );
    line(
        &shown,
        "contact   2 reports; moved BY ITSELF never; WELDED 1 time, the longest 115 ms",
    );
    // A time that no call can have is no time.
    let shown = replayed("contact 45 closed\npanel 46 on\ncontact 18446744073709551615 open\npanel 1000000000001 off\ntick 60\n");
    assert!(!shown.contains("BY ITSELF,"), "{shown}");
    let log = format!("{CHARGE}contact 18446744073709551615 open\npanel 1000000000001 off\n");
    let svg = answer(&["plot", "-", "-o", "-"], &log);
    assert!(svg.contains(" 0 to 10,040 ms:"), "{svg}");
}

/// Records may stand between a call and what was told of it, but one reply is told once.
#[test]
fn a_contact_between_a_call_and_its_told() {
    let shown = replayed("contact 41 closed\npanel 42 on\ntold C2 533 closed 0 1\n");
    line(&shown, "told      1 reply, of which 0 DIFFER");
}

/// Line 3 is compared, too.
#[test]
fn every_line_is_compared() {
    let shown = replayed("measure 50 1 2 3\ntold - - - - - 1 2 4\n");
    assert!(
        line(&shown, "8 ").ends_with("!! DIFFERS: told line 3: 4 mA, commanded 3 mA"),
        "{shown}"
    );
}

/// A contact may bounce for as long as it may take to follow.
#[test]
fn the_end_of_a_bounce() {
    let moves = |travel: &str, time: u64| {
        let open = format!("contact {time} open");
        let chatter = charging(
            600,
            &[(44, travel), (45, "contact 45 closed"), (time, &open)],
        );
        changes(&chatter).contains("BY ITSELF, commanded closed since 40")
    };
    assert_eq!((moves("# none", 140), moves("# none", 141)), (false, true));
    assert_eq!(
        (moves("travel 250", 290), moves("travel 250", 291)),
        (false, true)
    );
}

/// A report that is stamped before the command counts from the command on.
#[test]
fn a_report_from_before_the_command() {
    let shown = changes(&format!(
        "contact 35 open\ncontact 36 open\n{}",
        charging(200, &[])
    ));
    assert!(
        shown.contains("!! contact NOT CLOSING: open for 110 ms, commanded closed since 40"),
        "{shown}"
    );
}

/// What was told as commanded has no row, and what is reported again has one only if there is something to say.
#[test]
fn rows_of_records() {
    let shown = replayed("told C2 533 closed 0 1\ncontact 45 closed\ncontact 46 closed\ntick 121\ncontact 222 closed\n");
    assert!(
        !shown.lines().any(|row| row.starts_with("   7 ")),
        "{shown}"
    );
    assert!(
        line(&shown, "9 ").contains("contact closed"),
        "all rows are shown"
    );
    let shown = changes("contact 45 closed\ncontact 46 closed\ntick 121\ncontact 222 closed\n");
    assert!(
        !shown.lines().any(|row| row.starts_with("   8 ")),
        "{shown}"
    );
    assert!(
        line(&shown, "10 ")
            .ends_with("!! contact WELDED: closed for 101 ms, commanded open since 121"),
        "{shown}"
    );
}
