//! Damaged logs: torn lines, lost starts, last lines without their end.

use std::process::Output;
use tool::{line, run, run_file, text, CHARGE};

mod tool;

/// A log with a torn line in it, calls before its begin, and a torn last line.
fn damaged() -> String {
    let torn = "sample 50 60\u{0}\nsample 60 6000 -12000\n";
    format!("tick 3\ntold U 1000 open 0 0\n{CHARGE}{torn}limit 130 160")
}

fn skipped(words: &[&str], log: &[u8]) -> Output {
    let mut words = words.to_vec();
    words.push("--skip-bad");
    let output = run_file(&words, log);
    assert_eq!(output.status.code(), Some(0), "{}", text(&output.stderr));
    output
}

#[test]
fn bad_lines_are_left_out_named_and_counted() {
    let output = skipped(&["replay", "-"], damaged().as_bytes());
    let (shown, said) = (text(&output.stdout), text(&output.stderr));
    let bad = line(&shown, "9 ");
    assert!(
        bad.ends_with("!! bad line, left out: HIGH '60\\0' is no number; expected a whole number in digits alone, like 32000 or -12000"),
        "{bad}"
    );
    for row in [
        "calls     7: 7 accepted, 0 refused",
        "skipped   2 bad lines: 9, 11; what follows one may differ from what the post did",
        "skipped   2 lines before the first begin",
        "time      0 to 60 ms, closed for 20 ms",
    ] {
        line(&shown, row);
    }
    assert!(said.contains("bad lines are left out, and what follows one may differ from what the post did:\n  line 9: "), "{said}");
    assert!(
        said.contains("\n  line 11: it is the last line, and has no line end; expected a line end"),
        "{said}"
    );
    assert!(
        said.contains("2 lines before the first begin left out"),
        "{said}"
    );
}

#[test]
fn why_and_plot_and_summary_take_them_too() {
    let log = damaged();
    let why = text(&skipped(&["why", "-", "--at", "60"], log.as_bytes()).stdout);
    line(&why, "The contactor is closed since line 8, at 40.");
    let svg = text(&skipped(&["plot", "-", "-o", "-"], log.as_bytes()).stdout);
    assert!(svg.ends_with("</svg>\n") && svg.contains(">2 bad lines left out</text>"));
    let output = skipped(&["summary", "-", "--format", "json"], log.as_bytes());
    let row = text(&output.stdout);
    assert!(
        row.contains("\"bad_lines\":2,\"before_begin\":2,\"cut\":null"),
        "{row}"
    );
    let said = text(&output.stderr);
    assert!(said.contains("\n  line 9: HIGH"), "{said}");
    let table = text(&skipped(&["summary", "-"], log.as_bytes()).stdout);
    assert!(table.ends_with("/log (lines left out)\n"), "{table}");
}

#[test]
fn without_the_option_nothing_is_replayed() {
    let output = run_file(&["replay", "-"], damaged().as_bytes());
    assert_eq!(
        (output.status.code(), text(&output.stdout)),
        (Some(2), String::new())
    );
    let said = text(&output.stderr);
    assert!(
        said.contains(": line 9: HIGH '60\\0' is no number;"),
        "{said}"
    );
}

/// A last number may be a part of one: it is replayed as it stands, and that is said.
#[test]
fn a_last_line_without_its_end() {
    let log = format!("{CHARGE}limit 130 160");
    for words in [
        &["replay", "-"][..],
        &["why", "-", "--at", "130"],
        &["plot", "-", "-o", "-"],
    ] {
        let output = run_file(words, log.as_bytes());
        assert_eq!(output.status.code(), Some(0));
        assert!(text(&output.stderr).ends_with("line 7, the last one, has no line end and may be torn; it is replayed as it stands (--skip-bad leaves it out)\n"), "{}", text(&output.stderr));
    }
    let whole = run_file(&["replay", "-"], format!("{log}\n").as_bytes());
    assert_eq!(text(&whole.stderr), "");
    let skipped = text(&skipped(&["replay", "-"], log.as_bytes()).stdout);
    line(&skipped, "calls     6: 6 accepted, 0 refused");
    // A comment at the end can be torn as well, and matters to nobody.
    let comment = run_file(&["replay", "-"], format!("{CHARGE}# the end").as_bytes());
    assert!(text(&comment.stderr).contains("line 7, the last one"));
}

#[test]
fn a_log_in_which_no_begin_is_left() {
    let output = run_file(
        &["replay", "-", "--skip-bad"],
        b"tick 5\nbegin 0 32000 0 n\n",
    );
    assert_eq!(output.status.code(), Some(2));
    assert!(
        text(&output.stderr).contains("the log has no call; expected begin"),
        "{}",
        text(&output.stderr)
    );
}

#[test]
fn many_bad_lines_are_told_by_the_first_ten() {
    let log = format!("{CHARGE}{}", "sample\n".repeat(25));
    let output = skipped(&["replay", "-", "--only", "changes"], log.as_bytes());
    assert!(
        text(&output.stderr).ends_with("\n  and 15 more wrong lines\n"),
        "{}",
        text(&output.stderr)
    );
    line(
        &text(&output.stdout),
        "skipped   25 bad lines: 7, 8, 9, 10, 11, 12, 13, 14, 15, 16, ..;",
    );
}

/// A told whose call was torn belongs to no call.
#[test]
fn a_told_behind_a_torn_call() {
    let log =
        format!("{CHARGE}limit 50 x\ntold C2 533 closed 0 1\ntick 60\ntold C2 533 closed 0 1\n");
    let shown = text(&skipped(&["replay", "-"], log.as_bytes()).stdout);
    line(&shown, "skipped   2 bad lines: 7, 8;");
    line(
        &shown,
        "told      1 reply, of which 0 DIFFER from what is commanded",
    );
}

#[test]
fn a_stream_is_replayed_up_to_its_bad_line() {
    let log = format!("{CHARGE}sample 50 6000\ntick 60\n");
    let output = run(&["replay", "-"], log.as_bytes());
    assert_eq!(output.status.code(), Some(2));
    assert_eq!(
        text(&output.stderr),
        "chuldariin: standard input: line 7: LOW is missing; expected sample TIME HIGH LOW\n"
    );
    let shown = text(&output.stdout);
    assert!(
        line(&shown, "6 ").contains("CLOSED") && !shown.contains("summary"),
        "{shown}"
    );
    let output = run(&["replay", "-", "--skip-bad"], log.as_bytes());
    assert_eq!(output.status.code(), Some(0));
    line(&text(&output.stdout), "calls     7: 7 accepted");
}
