//! The strips of what the post recorded beside its calls.

use chuldariin_desk::plot::WHOLE;
use drawn::{picture, strip, texts, words};
use tool::CHARGE;

mod drawn;
mod tool;

/// The strips below the refused calls, one below the other.
const FIRST: f64 = 672.0;
const SECOND: f64 = 696.0;
const THIRD: f64 = 720.0;

/// The axis' labels with no strip of records.
const AXIS: f64 = 694.0;

#[test]
fn only_a_picture_with_records_has_their_strips() {
    let plain = picture(&format!("{CHARGE}tick 1000\n"), WHOLE);
    assert!(texts(&plain, AXIS).iter().any(|text| text.1 == "100 ms"));
    let log = format!("{CHARGE}contact 60 closed\ntick 1000\n");
    let one = picture(&log, WHOLE);
    assert_eq!(words(&one, FIRST + 13.0)[0], "contact");
    assert!(!one.contains(">told<") && !one.contains(">panel<"));
    // The axis and all below it moves down by one strip, and what is above it stays.
    assert!(texts(&one, AXIS + 24.0)
        .iter()
        .any(|text| text.1 == "100 ms"));
    assert!(one.contains("V700.0\"") && plain.contains("V676.0\""));
    // A part that comes before has none.
    assert!(!picture(&log, (0, 50)).contains(">contact<"));
    assert!(texts(&picture(&log, (0, 50)), AXIS)
        .iter()
        .any(|text| text.1 == "10 ms"));
}

#[test]
fn what_the_post_was_told() {
    let log = "begin 0 32000 3000 no\ntold U 1000 open 0 0\nlimit 0 32000\nsample 10 9000 9000\nsample 20 9000 9000\n\
               sample 30 6000 -12000\ntold - - - - -\nsample 40 6000 -12000\ntold C2 533 closed 0 1\nsample 80 6000 -12000\n\
               told C2 533 open 0 2\ntick 100\n";
    let svg = picture(log, WHOLE);
    let parts = strip(&svg, FIRST);
    let told: Vec<(f64, &str)> = parts
        .iter()
        .map(|part| (part.x, part.title.as_str()))
        .collect();
    // 100 ms from x 92 to 1164.
    assert_eq!(
        told,
        [
            (92.0, "told open"),
            (520.8, "told closed"),
            (949.6, "told open")
        ]
    );
    let [red] = strip(&svg, FIRST + 13.0).try_into().expect("one mark");
    assert_eq!(
        red.title,
        "DIFFERS: told contactor open, commanded closed; closings 2, commanded 1"
    );
    assert!(red.x < 949.6 && red.x + red.width > 949.6, "{red:?}");
    assert!(
        svg.contains(">red: the post's own log has another reply"),
        "{svg}"
    );
}

/// Marks that can't be told apart are one, with their number.
#[test]
fn many_differences_are_one_mark() {
    let mut log = CHARGE.to_string();
    for time in (60..60_000).step_by(20) {
        log.push_str(&format!("sample {time} 6000 -12000\ntold C2 - open - -\n"));
    }
    let svg = picture(&log, WHOLE);
    let [red] = strip(&svg, FIRST + 13.0).try_into().expect("one mark");
    assert!(
        red.title
            .starts_with("DIFFERS 2,997 times; first: told contactor open"),
        "{red:?}"
    );
    assert!(svg.len() < 100_000, "{} bytes", svg.len());
}

/// Opened at 141, and still closed at 1000.
#[test]
fn a_contact_that_does_not_follow() {
    let log = format!("{CHARGE}contact 60 closed\ntick 141\ncontact 500 closed\ntick 1000\ncontact 1041 open\ntick 2000\n");
    let svg = picture(&log, WHOLE);
    let parts = strip(&svg, FIRST);
    let titles: Vec<&str> = parts.iter().map(|part| part.title.as_str()).collect();
    let welded = "WELDED from 141 to 1041, 900 ms: commanded open";
    assert_eq!(titles, ["closed", "open", welded]);
    assert_eq!(parts[2].fill, "#ff8182");
    assert!(
        (parts[2].width - 1_072.0 * 900.0 / 2_000.0).abs() < 0.02,
        "{parts:?}"
    );
    assert!(words(&svg, FIRST + 13.0).contains(&"WELDED".to_string()));
    // It is seen in a part that has no record, too.
    let svg = picture(&log, (600, 900));
    let parts = strip(&svg, FIRST);
    assert_eq!((parts[1].x, parts[1].width), (92.0, 1_072.0));
    assert_eq!(parts[1].title, welded);
}

#[test]
fn a_contact_that_does_not_close() {
    let samples: String = (60..2_000)
        .step_by(20)
        .map(|time| format!("sample {time} 6000 -12000\n"))
        .collect();
    let log = format!("{CHARGE}contact 45 open\n{samples}");
    let svg = picture(&log, WHOLE);
    let failing = "NOT CLOSING from 45 to the end of the log, 1,935 ms: commanded closed";
    assert!(
        strip(&svg, FIRST).iter().any(|part| part.title == failing),
        "{svg}"
    );
    assert!(words(&svg, FIRST + 13.0).contains(&"NOT CLOSING".to_string()));
}

/// A clock that starts anew: each record stands in its own list.
#[test]
fn records_of_two_lists() {
    let log = format!(
        "{CHARGE}contact 60 closed\ntick 141\ntick 1000\nbegin 0 32000 0 no\ncontact 500 open\ntick 1000\n"
    );
    let svg = picture(&log, WHOLE);
    let parts = strip(&svg, FIRST);
    let failed: Vec<&str> = parts[2..].iter().map(|part| part.title.as_str()).collect();
    assert_eq!(
        failed,
        [
            "WELDED from 1:141 to 2:0, 859 ms: commanded open",
            "WELDED from 2:0 to 2:500, 500 ms: commanded open"
        ]
    );
}

#[test]
fn the_words_of_the_panel() {
    let long = "Charging at 32 A, please do not unplug before the light is green";
    let log = format!(
        "{CHARGE}told C2 - closed - -\ncontact 60 closed\npanel 60 {long}\npanel 80 {long}\npanel 200 Ready & done\ntick 1000\n"
    );
    let svg = picture(&log, WHOLE);
    let names = [FIRST, SECOND, THIRD].map(|y| words(&svg, y + 13.0)[0].clone());
    assert_eq!(names, ["told", "contact", "panel"]);
    let parts = strip(&svg, THIRD);
    let titles: Vec<&str> = parts.iter().map(|part| part.title.as_str()).collect();
    assert_eq!(titles, [long, "Ready &amp; done"]);
    assert_ne!(parts[0].fill, parts[1].fill);
    // Where there is no room for all, the start is shown.
    let labels = words(&svg, THIRD + 13.0);
    assert_eq!(labels[1..], ["Charging at 32 A..", "Ready &amp; done"]);
}

/// A record after the last call is in the picture.
#[test]
fn a_record_after_the_last_call() {
    let svg = picture(&format!("{CHARGE}tick 141\ncontact 500 closed\n"), WHOLE);
    assert!(svg.contains(", 0 to 500 ms:"), "{svg}");
    // One that is far ahead may be of another clock, and stretches the axis by 10 s at most.
    let svg = picture(
        &format!("{CHARGE}panel 18446744073709551615 Hello\n"),
        WHOLE,
    );
    assert!(svg.contains(", 0 to 10,040 ms:"), "{svg}");
}
