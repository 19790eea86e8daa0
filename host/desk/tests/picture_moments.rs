//! How a picture names its moments: by the post's clock in each list, and by the wall's.

use chuldariin_desk::plot::WHOLE;
use drawn::{drawn, picture, texts, words};
use tool::CHARGE;

mod drawn;
mod tool;

/// The labels of the axis, of the lists and of the wall's clock.
const AXIS: f64 = 694.0;
const LISTS: f64 = 710.0;

/// 10 s, then a clock that starts anew and runs for 5 s.
const ANEW: &str = "begin 0 32000 0 no\ntick 10000\nbegin 1000 32000 0 no\ntick 6000\n";

#[test]
fn the_axis_has_the_times_of_each_list() {
    let svg = picture(ANEW, WHOLE);
    assert!(svg.contains(">2 begins, 4 calls, 1:0 to 2:6000:"), "{svg}");
    let place = |time: f64| (92.0 + 1_072.0 * time / 15_000.0).round();
    let labels = texts(&svg, AXIS)
        .into_iter()
        .map(|(x, words)| (x.round(), words));
    let labels: Vec<(f64, String)> = labels.collect();
    // 2 s of the second list are 1 s after its begin, at 10 s of the axis.
    for (time, words) in [(0.0, "0 s"), (8.0, "8 s"), (11.0, "2 s"), (13.0, "4 s")] {
        let expected = (place(time * 1_000.0), words.to_string());
        assert!(labels.contains(&expected), "{expected:?}\n{labels:?}");
    }
    assert!(!svg.contains(">12 s<"));
}

#[test]
fn each_list_is_marked() {
    let lists = texts(&picture(ANEW, WHOLE), LISTS);
    assert_eq!(
        lists,
        [(96.0, "list 1".to_string()), (810.7, "list 2".to_string())]
    );
    assert!(!picture(CHARGE, WHOLE).contains("list 1"));
    // Of a thousand those that there is room for.
    let lists = "begin 0 32000 0 no\ntick 1000\n".repeat(1_000);
    let marked = words(&picture(&lists, WHOLE), LISTS).len();
    assert!((10..=20).contains(&marked), "{marked}");
}

/// What is read off a picture can be asked for.
#[test]
fn a_part_is_asked_for_by_its_list() {
    let svg = picture(ANEW, ("2:1500", "2:4000"));
    assert!(svg.contains(">0 calls, 2:1500 to 2:4000:"), "{svg}");
    assert_eq!(words(&svg, LISTS), ["list 2"]);
    let svg = picture(ANEW, ("1:9000", "2:2000"));
    assert!(svg.contains(">2 calls, 1:9000 to 2:2000:"), "{svg}");
    // A begin at the place where the list before it ends is of its own list.
    let svg = picture(ANEW, ("2:1000", "2:6000"));
    assert!(svg.contains(">2 calls, 2:1000 to 2:6000:"), "{svg}");
    // After the end of a list is its end.
    let svg = picture(ANEW, ("1:5000", "1:99000"));
    assert!(svg.contains(">1 call, 1:5000 to 1:10000:"), "{svg}");
    let error = drawn(ANEW, ("5000", "6000")).expect_err("two lists");
    assert!(
        error.contains("fits 2 lists") && error.contains("2:5000"),
        "{error}"
    );
}

/// 5 s before midnight, and an opening 141 ms after the begin.
fn tied() -> String {
    let clock = "clock 0 2026-11-16T23:59:55+01:00\nlimit 0";
    format!("{CHARGE}tick 141\ntick 10000\n").replace("limit 0", clock)
}

#[test]
fn the_axis_has_the_wall_too() {
    let svg = picture(&tied(), WHOLE);
    assert!(
        svg.contains(">2026-11-16T23:59:55.000+01:00 to 2026-11-17T00:00:05.000+01:00<"),
        "{svg}"
    );
    let clock = words(&svg, LISTS);
    assert_eq!(clock[..4], ["wall", "23:59:55", "23:59:56", "23:59:57"]);
    // The date where it first appears, and where it changes.
    let dates = texts(&svg, LISTS + 14.0);
    let dates: Vec<(f64, &str)> = dates.iter().map(|date| (date.0, date.1.as_str())).collect();
    assert_eq!(dates, [(92.0, "2026-11-16"), (628.0, "2026-11-17")]);
    // With milliseconds where the labels are nearer than a second.
    let svg = picture(&tied(), (0, 1_000));
    assert_eq!(words(&svg, LISTS)[1..3], ["23:59:55.000", "23:59:55.100"]);
}

/// Before the log tells it, nobody knows it.
#[test]
fn the_wall_is_not_known_before_it_is_told() {
    let late = tied().replace(
        "tick 10000",
        "clock 5000 2026-11-17T00:00:00+01:00\ntick 10000",
    );
    let late = late.replacen("clock 0 2026-11-16T23:59:55+01:00\n", "", 1);
    let svg = picture(&late, WHOLE);
    assert!(svg.contains(">to 2026-11-17T00:00:05.000+01:00<"), "{svg}");
    assert_eq!(words(&svg, LISTS)[..2], ["wall", "00:00:00"]);
    assert!(!picture(&late, (0, 4_000)).contains(">wall<"));
}

#[test]
fn an_opening_is_listed_by_all_clocks() {
    let row = words(&picture(&tied(), WHOLE), 768.0);
    let cause = "101 ms since the last sound sample (ii)";
    assert_eq!(
        row,
        [
            "1",
            "141",
            "0.141 s",
            "2026-11-16T23:59:55.141+01:00",
            cause
        ]
    );
}

/// Under an axis in minutes the time is in minutes, too.
#[test]
fn an_opening_is_listed_in_the_unit_of_the_axis() {
    let charge =
        "begin 0 32000 0 no\nlimit 0 32000\nsample 312000 9000 9000\nsample 312010 9000 9000\n\
                  sample 312020 6000 -12000\nsample 312040 6000 -12000\ntick 312345\n";
    for (end, axis) in [
        (330_000, "312.345 s"),
        (3_600_000, "5 min 12.345 s"),
        (36_000_000, "5 min 12.345 s"),
    ] {
        let row = words(&picture(&format!("{charge}tick {end}\n"), WHOLE), 760.0);
        assert_eq!(row[1..3], ["312345", axis], "{end}");
    }
    let row = words(
        &picture(&format!("{charge}tick 312400\n"), (312_000, 312_400)),
        760.0,
    );
    assert_eq!(row[1..3], ["312345", "312,345 ms"]);
}

/// The second opening is the second in any part.
#[test]
fn a_part_keeps_the_numbers_of_its_openings() {
    let mut log = CHARGE.replace("3000 no", "1000 no");
    for time in [1_000, 3_000, 5_000] {
        let (open, first, second) = (time, time + 1_000, time + 1_010);
        log.push_str(&format!(
            "tick {open}\nsample {first} 6000 -12000\nsample {second} 6000 -12000\n"
        ));
    }
    let svg = picture(&log, (2_500, 5_500));
    assert!(svg.contains(">2 openings (red)"), "{svg}");
    let badges = words(&svg, 79.0);
    assert_eq!(badges, ["2", "3"]);
    let [first, second] = [760.0, 778.0].map(|y| words(&svg, y));
    assert_eq!(first[..2], ["2", "3000"]);
    assert_eq!(second[..2], ["3", "5000"]);
}
