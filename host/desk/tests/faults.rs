//! The latched faults, in the order in which they were latched: lines, `why`, summary and picture.

use chuldariin::raw::Controller;
use chuldariin_desk::latched::Latched;
use chuldariin_desk::plot::WHOLE;
use chuldariin_log::meaning::meaning;
use chuldariin_model::{Order, State};
use drawn::picture;
use tool::{answer, line, says, waits, why, CHARGE};

mod drawn;
mod tool;

/// A charge, then an over-run from 50 on, with sound samples up to 5000.
fn over_run() -> String {
    let samples: String = (50..=5_000)
        .step_by(50)
        .map(|time| format!("sample {time} 6000 -12000\n"))
        .collect();
    format!("{CHARGE}measure 50 36000\n{samples}")
}

/// The line of this time tells the fault and, at its end, this.
fn tells(log: &str, time: u64, fault: &str, note: &str) {
    let answer = answer(&["replay", "-"], log);
    // A later list has its number before the time.
    let own = |moment: &str| moment.rsplit(':').next() == Some(&time.to_string());
    let mut rows = answer.lines();
    let row = rows.rfind(|row| row.split_whitespace().nth(1).is_some_and(own));
    let row = row.unwrap_or_else(|| panic!("{time}\n{answer}"));
    let column = answer.find("fault  ").expect("a column of faults");
    assert_eq!(row[column..column + 19].trim_end(), fault, "{row}");
    assert!(row.ends_with(note), "{row}");
}

#[test]
fn the_first_is_told_and_stays_first() {
    let log = format!("{CHARGE}fault 50 4\nfault 60 3\nfault 70 3\nfault 80 4\nfault 90 5\n");
    let (first, two) = ("welded contact", "welded contact +1");
    for (time, fault, note) in [
        (50, first, "<< OPENED: fault: welded contact (v)"),
        (
            60,
            two,
            "  fault 3 (residual current), behind welded contact: told",
        ),
        (
            70,
            two,
            "  fault 3 (residual current), behind welded contact: told again, keeps its place",
        ),
        (
            80,
            two,
            "  fault 4 (welded contact): told again, keeps its place",
        ),
        (
            90,
            "welded contact +2",
            "  fault 5 (over-temperature), behind welded contact: told",
        ),
    ] {
        tells(&log, time, fault, note);
    }
}

/// A fault that comes back takes a new place.
#[test]
fn a_clear_empties_the_order() {
    let log =
        format!("{CHARGE}fault 50 4\nfault 60 3\nclear 70\nfault 80 3\nfault 90 4\nfault 99 3\n");
    for (time, fault, note) in [
        (70, "", "  1"),
        (80, "residual current", "  fault 3 (residual current): told"),
        (
            90,
            "residual current +1",
            "  fault 4 (welded contact), behind residual current: told",
        ),
        (
            99,
            "residual current +1",
            "  fault 3 (residual current): told again, keeps its place",
        ),
    ] {
        tells(&log, time, fault, note);
    }
}

/// A fault call's own fault comes before a 2 of the same call, and 1 before 2.
#[test]
fn two_faults_of_one_call() {
    let over_run = over_run();
    tells(
        &format!("{over_run}fault 5050 3\n"),
        5_050,
        "residual current +1",
        "<< OPENED: fault: residual current first, then over-current (v); fault 2 (over-current), behind residual current: the over-run began 5,000 ms ago, at 50",
    );
    tells(
        &format!("{over_run}fault 5049 3\n"),
        5_049,
        "residual current",
        "<< OPENED: fault: residual current (v); over-run ends, 4,999 ms old",
    );
    tells(
        &format!("{over_run}sample 5040 6000 -10900\nsample 5050 6000 -10900\n"),
        5_050,
        "no diode +1",
        "are outside -13,000 to -11,000 (i); fault: no diode first, then over-current (v); fault 2 (over-current), behind no diode: the over-run began 5,000 ms ago, at 50",
    );
}

/// Neither a refused fault nor a refused clear changes the order; a begin empties it.
#[test]
fn what_leaves_the_order_and_what_empties_it() {
    let log = format!(
        "{CHARGE}fault 50 5\nfault 60 4\nfault 70 6\nclear 55\nbegin 80 1 0 no\ntick 85\nfault 90 3\n"
    );
    let answer = answer(&["replay", "-"], &log);
    for refused in ["9 ", "10 "] {
        let row = line(&answer, refused);
        assert!(row.contains("  over-temperature +1  "), "{row}");
    }
    let note = "fault 3 (residual current), behind over-temperature: told";
    tells(&log, 90, "over-temperature +2", note);
    let note = "  fault 4 (welded contact): told";
    let anew = format!("{log}begin 95 32000 0 no\nfault 99 4\n");
    tells(&anew, 99, "welded contact", note);
    // Of a clear's own call 2 is left.
    let note = "<< OPENED: fault: over-current (v); fault 2 (over-current): the over-run began 5,000 ms ago, at 50";
    let clear = format!("{}clear 5050\n", over_run());
    tells(&clear, 5_050, "over-current", note);
}

/// The reply stays as it was, and yet something happened.
#[test]
fn a_fault_behind_others_is_a_change() {
    let log = format!("{CHARGE}fault 50 3\ntick 60\nfault 70 5\ntick 80\nfault 90 5\n");
    let answer = answer(&["replay", "-", "--only", "changes"], &log);
    for (start, shown) in [
        ("7 ", true),
        ("8 ", false),
        ("9 ", true),
        ("10 ", false),
        ("11 ", true),
    ] {
        let mut rows = answer.lines();
        assert_eq!(
            rows.any(|row| row.trim_start().starts_with(start)),
            shown,
            "{start}\n{answer}"
        );
    }
}

#[test]
fn why_names_them_in_their_order() {
    let log = format!("{}fault 5050 3\nfault 5060 4\n", over_run());
    let answer = why(&log, "5060");
    line(
        &answer,
        "OPENED: fault: residual current first, then over-current (v); line 108, at 5050",
    );
    let all = "residual current first, then over-current, then welded contact";
    says(
        &answer,
        "wave driven",
        &format!("no   -12 V: fault latched: {all}, and no state is settled (U)"),
    );
    waits(&answer, &format!("a clear call (fault: {all}), a settled state (it is U), two proven samples in a row in one band and the end of the pause at 8050"));
    let cleared = why(&format!("{log}clear 5070\nfault 5080 4\n"), "5080");
    says(
        &cleared,
        "wave driven",
        "no   -12 V: fault latched: welded contact, and no state is settled (U)",
    );
}

/// What the summary says of faults.
fn summary(calls: &str) -> Vec<String> {
    let answer = answer(&["replay", "-"], &format!("{CHARGE}{calls}"));
    let (_, summary) = answer.split_once("\nsummary\n").expect("a summary");
    let lines = summary.lines().map(str::to_string);
    let faults = lines.skip_while(|line| !line.starts_with("  faults"));
    faults
        .take_while(|line| !line.starts_with("  refusals"))
        .collect()
}

#[test]
fn the_summary_counts_the_first() {
    let nothing: [&str; 0] = [];
    assert_eq!(summary(""), nothing);
    // Alone, told again, and one after the other.
    assert_eq!(
        summary("fault 50 3\nfault 60 3\nclear 70\nfault 80 4\n"),
        nothing
    );
    assert_eq!(
        summary("fault 50 3\nbegin 60 32000 0 no\nfault 70 4\n"),
        nothing
    );
    // However many come behind it.
    let once = "fault 50 3\nfault 60 5\nfault 70 4\nfault 80 5\n";
    let first = "          1  3     residual current";
    assert_eq!(
        summary(once),
        ["  faults    behind another 1 time; the first was", first]
    );
    let again = "clear 90\nfault 100 4\nfault 110 3\nclear 120\nfault 130 4\nfault 140 5\n";
    assert_eq!(
        summary(&format!("{once}{again}")),
        [
            "  faults    behind another 3 times; the first was",
            first,
            "          2  4     welded contact",
        ]
    );
}

/// Both in one call, so that nothing was latched before it.
#[test]
fn the_summary_counts_two_faults_of_one_call() {
    let log = format!("{}fault 5050 3\n", over_run());
    let answer = answer(&["replay", "-"], &log);
    line(&answer, "faults    behind another 1 time");
    line(&answer, "1  3     residual current");
}

/// What the strip of faults has: the titles of its parts, its labels, and the places of its lines.
fn strip(svg: &str) -> [Vec<String>; 3] {
    let of = |start: &str, y: &str, from: &str, to: &str| {
        let lines = svg.lines();
        let lines = lines.filter(|line| line.starts_with(start) && line.contains(y));
        let told = lines.filter_map(|line| line.split_once(from)?.1.split_once(to));
        told.map(|told| told.0.to_string()).collect()
    };
    [
        of("<rect", "y=\"624.0\"", "fill=\"#ff8182\"><title>", "<"),
        of("<text", "y=\"637.0\"", "class=\"\">", "<"),
        of("<line", "y1=\"624.0\"", "x1=\"", "\""),
    ]
}

/// 10,000 ms from x 92 to 1164: the more room, the more words.
#[test]
fn the_strip_of_faults() {
    let log = "begin 0 32000 0 no\nfault 100 3\nfault 200 4\nfault 4000 5\nclear 6000\nfault 6000 5\nfault 6500 4\nfault 6500 5\ntick 10000\n";
    let [titles, labels, lines] = strip(&picture(log, WHOLE));
    let three = "residual current first, then welded contact, then over-temperature";
    let [two, other] = [
        "residual current first, then welded contact",
        "over-temperature first, then welded contact",
    ];
    assert_eq!(
        titles,
        ["residual current", two, three, "over-temperature", other]
    );
    assert_eq!(labels, ["3", two, "residual current +2", "5", other]);
    // Where 4 and 5 come behind 3, and 4 behind 5; none at a clear.
    assert_eq!(lines, ["113.4", "520.8", "788.8"]);
    // With little room their numbers, in their order.
    let [_, labels, _] = strip(&picture(&log.replace("10000", "100000"), WHOLE));
    assert_eq!(labels[0], "3,4");
}

/// However often a fault comes behind another, the lines can be told apart.
#[test]
fn a_strip_of_many_faults() {
    let mut log = "begin 0 32000 0 no\n".to_string();
    for time in 1..20_000 {
        log.push_str(&format!("fault {time} 3\nfault {time} 4\nclear {time}\n"));
    }
    let [_, _, lines] = strip(&picture(&log, WHOLE));
    assert!((500..2_200).contains(&lines.len()), "{}", lines.len());
}

/// The list of openings, and the mark that a pointer rests on.
#[test]
fn an_opening_in_the_picture() {
    let svg = picture(
        &format!("{}fault 5050 3\nfault 5060 4\n", over_run()),
        WHOLE,
    );
    let words = "fault: residual current first, then over-current (v)";
    assert!(svg.contains(&format!(">{words}</text>")), "{svg}");
    assert!(
        svg.contains(&format!("<title>OPENED: {words}</title>")),
        "{svg}"
    );
}

/// A part that starts where two are latched shows what held before it, and no line.
#[test]
fn a_part_keeps_the_order() {
    let log = "begin 0 32000 0 no\nfault 100 5\nfault 200 3\ntick 1000\n";
    let svg = picture(log, (500, 900));
    let title = "over-temperature first, then residual current";
    assert_eq!(strip(&svg), [vec![title], vec![title], vec![]]);
}

/// A controller in which these faults are latched.
fn latched(faults: [bool; 5], order: Option<[u32; 5]>) -> Latched {
    Latched::of(&State {
        faults,
        order: order.and_then(Order::of),
        ..meaning(&Controller::ZEROED)
    })
}

#[test]
fn faults_in_words() {
    for (faults, order, words) in [
        ([false; 5], [0; 5], ""),
        (
            [false, false, true, false, false],
            [3, 0, 0, 0, 0],
            "residual current",
        ),
        (
            [false, true, true, false, false],
            [3, 2, 0, 0, 0],
            "residual current first, then over-current",
        ),
        (
            [true; 5],
            [1, 2, 5, 4, 3],
            "no diode first, then over-current, then over-temperature, then welded contact, then residual current",
        ),
    ] {
        let latched = latched(faults, Some(order));
        assert_eq!(latched.words(), words);
        let numbers: Vec<u32> = latched.numbers().map(u32::from).collect();
        assert_eq!(numbers, order[..numbers.len()]);
    }
    let three = latched([false, false, true, true, true], Some([5, 3, 4, 0, 0]));
    assert_eq!(three.with_more(5), "over-temperature +2");
    let first = Some("over-temperature");
    assert_eq!(
        [5, 3, 4].map(|n| three.first_before(n)),
        [None, first, first]
    );
}

/// Without an order nobody knows which was first, and nothing says so.
#[test]
fn faults_of_an_altered_controller() {
    let faults = [false, true, true, false, true];
    // No order, and the order of other faults.
    for order in [None, Some([3, 2, 0, 0, 0]), Some([5, 4, 3, 2, 1])] {
        let altered = latched(faults, order);
        assert_eq!(
            altered.words(),
            "over-current, residual current, over-temperature"
        );
        assert_eq!(altered.first_before(5), None);
        assert_eq!(altered.with_more(3), "residual current +2");
    }
}
