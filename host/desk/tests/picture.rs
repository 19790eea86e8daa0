//! What a picture shows: its elements, by their classes and places.

use chuldariin_desk::input::Log;
use chuldariin_desk::plot::{plot, WHOLE};
use drawn::{path, picture, places, Asked};

mod drawn;

const CHARGE: &str = "\
begin 0 32000 3000 no
limit 0 16000
sample 10 9000 9000
sample 20 9000 9000
sample 30 6000 -12000
sample 40 6000 -12000
limit 500 20000
tick 1000
";

#[test]
fn the_lines_stand_at_their_values() {
    let svg = picture(CHARGE, WHOLE);
    // 1,000 ms from x 92 to 1164; 15 V at y 92, -15 V at 392.
    assert_eq!(
        places(path(&svg, "high"))[..2],
        [(102.7, 152.0), (113.4, 152.0)]
    );
    assert_eq!(places(path(&svg, "low")).last(), Some(&(134.9, 362.0)));
    // 0 A at y 528, 40 A at 412: the limit is 16 A from the first call on and 20 A from the middle on.
    let limit = places(path(&svg, "limit"));
    assert_eq!(limit[..2], [(92.0, 528.0), (92.0, 481.6)]);
    assert!(limit.contains(&(628.0, 481.6)) && limit.contains(&(628.0, 470.0)));
    assert_eq!(limit.last(), Some(&(1164.0, 470.0)));
    // Announced is 0 A, then 15.96 A from 20 on.
    let announced = places(path(&svg, "announced"));
    assert_eq!(announced.first(), Some(&(92.0, 528.0)));
    assert!(announced.contains(&(113.4, 481.7)));
    assert_eq!(places(path(&svg, "rated")).last(), Some(&(1164.0, 435.2)));
}

#[test]
fn bands_and_strips() {
    let svg = picture(CHARGE, WHOLE);
    for (top, height) in [
        (112.0, 20.0),
        (142.0, 20.0),
        (172.0, 20.0),
        (202.0, 20.0),
        (232.0, 20.0),
        (352.0, 20.0),
    ] {
        let band =
            format!("<rect x=\"92.00\" y=\"{top:.1}\" width=\"1072.00\" height=\"{height:.1}\"");
        assert!(svg.contains(&band), "{band}");
    }
    // Closed from 40 to 500, where a limit call finds no sound sample for 460 ms.
    assert!(svg.contains("<rect x=\"134.88\" y=\"552.0\" width=\"493.12\" height=\"18.0\" fill=\"#2da44e\"><title>closed</title>"));
    assert!(svg.contains("<title>OPENED: 460 ms since the last sound sample (ii)</title>"));
    assert!(svg.contains(">460 ms since the last sound sample (ii)</text>"));
    for state in ["U", "B2", "C2"] {
        assert!(svg.contains(&format!("<title>{state}</title>")), "{state}");
    }
}

/// What the over-run's strip tells, part by part, and the number of its restarts.
fn overrun_strip(svg: &str) -> (Vec<&str>, usize) {
    let parts = svg.lines().filter(|line| line.contains("y=\"600.0\""));
    let told = parts.filter_map(|part| part.split_once("<title>")?.1.split_once(" unless"));
    let restarts = svg.lines().filter(|line| line.contains("y1=\"600.0\""));
    (told.map(|told| told.0).collect(), restarts.count())
}

#[test]
fn an_over_run_and_its_restart() {
    let (charge, _) = CHARGE.split_at(CHARGE.find("limit 500").expect("a later limit"));
    let over = "measure 50 20000\nlimit 60 10000\nlimit 70 6000\nmeasure 100 0\ntick 110\n";
    let text = format!("{charge}{over}");
    let [starts, once, twice] = [
        "over-run: fault 2 at 5050",
        "restarted at 60: fault 2 at 5060",
        "restarted at 70: fault 2 at 5070",
    ];
    for (part, told, restarts) in [
        (WHOLE, vec![starts, once, twice], 2),
        ((65, 75).part(), vec![once, twice], 1),
        // No call is in it.
        ((75, 85).part(), vec![twice], 0),
        ((105, 110).part(), vec![], 0),
    ] {
        let svg = picture(&text, part);
        assert_eq!(overrun_strip(&svg), (told, restarts), "{part:?}");
    }
}

#[test]
fn samples_far_apart_are_not_joined() {
    let text = "begin 0 32000 0 no\nsample 100 9000 9000\nsample 180 9000 9000\nsample 261 9000 9000\nbegin 300 32000 0 no\nsample 310 9000 9000\n";
    let svg = picture(text, WHOLE);
    let joined: Vec<char> = path(&svg, "high")
        .chars()
        .filter(|c| "ML".contains(*c))
        .collect();
    assert_eq!(joined, ['M', 'L', 'M', 'M']);
}

#[test]
fn a_part_starts_with_what_held_before_it() {
    let svg = picture(CHARGE, (45, 400));
    assert!(
        svg.contains(">0 calls, 45 to 400 ms: 0 closings, 0 openings, 0 refused</text>"),
        "{svg}"
    );
    assert!(svg.contains("<rect x=\"92.00\" y=\"552.0\" width=\"1072.00\" height=\"18.0\" fill=\"#2da44e\"><title>closed</title>"));
    let svg = picture(CHARGE, (30, 500));
    assert!(
        svg.contains(">3 calls, 30 to 500 ms: 1 closing, 1 opening, 0 refused</text>"),
        "{svg}"
    );
    assert_eq!(places(path(&svg, "limit")).first(), Some(&(92.0, 481.6)));
}

#[test]
fn a_clock_that_starts_anew_stands_behind_the_list_before() {
    let text = "begin 500 32000 0 no\ntick 900\nbegin 100 16000 0 yes\nfault 300 4\nfault 300 5\ntick 400\n";
    let svg = picture(text, WHOLE);
    assert!(svg.contains(">2 begins, 6 calls, 1:500 to 2:400:"), "{svg}");
    assert!(svg.contains("<title>welded contact first, then over-temperature</title>"));
    // The fault is told 600 ms after the start, of 700.
    let x = 92.0 + 1072.0 * 600.0 / 700.0;
    assert!(
        svg.contains(&format!("<rect x=\"{x:.2}\" y=\"624.0\"")),
        "{svg}"
    );
}

#[test]
fn the_axis_has_the_times_of_the_log() {
    for (log, label) in [
        ("begin 100000 32000 0 no\ntick 101000\n", ">100,000 ms<"),
        ("begin 0 32000 0 no\ntick 60000\n", ">10 s<"),
        ("begin 0 32000 0 no\ntick 600000\n", ">10 min<"),
        ("begin 0 32000 0 no\ntick 36000000\n", ">10 h<"),
        ("begin 0 32000 0 no\ntick 1000000000000\n", ">3,650 d<"),
    ] {
        let svg = picture(log, WHOLE);
        assert!(svg.contains(label), "{label}\n{svg}");
    }
    let svg = picture(&format!("{CHARGE}measure 1000 100000\n"), WHOLE);
    assert!(svg.contains(">200 A<") && svg.contains("cx=\"1164.0\" cy=\"470.0\""));
}

/// The places of the circles of a class; the legend's are above the panel.
fn circles(svg: &str, class: &str) -> Vec<(f64, f64)> {
    let end = format!("class=\"{class}\"/>");
    let value = |line: &str, name: &str| -> f64 {
        let start = line.find(name).expect("a place") + name.len();
        let text = line[start..].split('"').next().expect("a number");
        text.parse().expect("a number")
    };
    let circles = svg
        .lines()
        .filter(|line| line.starts_with("<circle") && line.ends_with(&end));
    let places = circles.map(|line| (value(line, "cx=\""), value(line, "cy=\"")));
    places.filter(|place| place.1 >= 412.0).collect()
}

/// 0 to 40 A from y 528 to 412; 1,000 ms from x 92 to 1164.
#[test]
fn three_lines_have_a_dot_each_and_a_ring_around_the_largest() {
    let one = picture(&format!("{CHARGE}measure 1000 20000\n"), WHOLE);
    assert_eq!(circles(&one, "measured"), [(1164.0, 470.0)]);
    assert!(circles(&one, "line1").is_empty() && circles(&one, "largest").is_empty());
    let log = CHARGE.replace("tick 1000", "measure 500 10000 20000 0\nmeasure 1000 15000");
    let three = picture(&log, WHOLE);
    assert_eq!(circles(&three, "line1"), [(628.0, 499.0), (1164.0, 484.5)]);
    assert_eq!(circles(&three, "line2"), [(628.0, 470.0), (1164.0, 528.0)]);
    assert_eq!(circles(&three, "line3"), [(628.0, 528.0), (1164.0, 528.0)]);
    assert_eq!(
        circles(&three, "largest"),
        [(628.0, 470.0), (1164.0, 484.5)]
    );
    assert!(circles(&three, "measured").is_empty());
    for words in [">line 1<", ">line 2<", ">line 3<", ">largest<"] {
        assert!(three.contains(words) && !one.contains(words), "{words}");
    }
}

#[test]
fn of_many_openings_the_first_are_listed() {
    let mut log = CHARGE.replace("3000 no", "1000 no");
    for time in (2_000..200_000).step_by(1_200) {
        let (second, later) = (time + 10, time + 100);
        log.push_str(&format!(
            "sample {time} 6000 -12000\nsample {second} 6000 -12000\ntick {later}\n"
        ));
    }
    let svg = picture(&log, WHOLE);
    assert!(
        svg.contains(">166 openings (red)")
            && svg.contains(">and 126 more: replay the log to see them<")
    );
    let listed = svg
        .lines()
        .filter(|line| line.starts_with("<text") && line.contains("since the last sound sample"));
    assert_eq!(listed.count(), 40);
    assert!(!svg.contains("V392.0"), "no line goes through the panels");
    assert!(
        svg.matches("class=\"red\"").count() < 80,
        "the numbers stand apart"
    );
}

#[test]
fn what_goes_before_the_first_begin_has_no_place() {
    let svg = picture(
        "begin 0 1 0 no\ntick 5\nbegin 1000000 32000 0 no\ntick 1000100\n",
        WHOLE,
    );
    assert!(
        svg.contains(">2 calls, 1,000,000 to 1,000,100 ms: 0 closings, 0 openings, 0 refused<"),
        "{svg}"
    );
    let svg = picture("begin 7 32000 0 no\ntick 7\n", WHOLE);
    assert!(svg.contains(">2 calls, 7 to 7 ms:"), "{svg}");
}

#[test]
fn a_log_of_many_lifetimes_has_few_labels() {
    let list = "begin 0 32000 0 no\ntick 1000000000000\n";
    let svg = picture(&list.repeat(1_000), WHOLE);
    assert!(svg.matches(" d</text>").count() < 20, "{svg}");
}

#[test]
fn a_short_opening_is_seen_between_long_closings() {
    let mut log = CHARGE
        .replace("limit 500 20000\ntick 1000\n", "")
        .replace("3000 no", "1000 no");
    for time in (50..100_000).step_by(50) {
        // Unsound for 100 ms in the middle, and closed again a second later.
        let high = if (50_000..50_100).contains(&time) {
            9_000
        } else {
            6_000
        };
        log.push_str(&format!("sample {time} {high} -12000\n"));
    }
    let svg = picture(&log, WHOLE);
    let strip: Vec<&str> = svg
        .lines()
        .filter(|line| line.contains("y=\"552.0\"") && line.contains("<title>"))
        .collect();
    let places = |line: &str| {
        let number = |name: &str| {
            let part = line.split(&format!("{name}=\"")).nth(1).expect(name);
            part.split('"')
                .next()
                .and_then(|number| number.parse::<f64>().ok())
                .expect(name)
        };
        (number("x"), number("width"))
    };
    let spans: Vec<(f64, f64)> = strip.iter().map(|line| places(line)).collect();
    // Open, closed, open, closed; none covers another.
    assert_eq!(spans.len(), 4, "{strip:?}");
    assert!(
        spans
            .windows(2)
            .all(|two| two[0].0 + two[0].1 <= two[1].0 + 0.011),
        "{spans:?}"
    );
}

#[test]
fn a_part_starts_where_it_was_asked_to() {
    let svg = picture(CHARGE, (35, 500));
    assert!(
        svg.contains(">2 calls, 35 to 500 ms: 1 closing, 1 opening, 0 refused</text>"),
        "{svg}"
    );
}

#[test]
fn openings_are_listed_with_their_lists() {
    // Closed at 1,040 and opened by the begin; closed again 40 ms after it, and opened at its own 500.
    let text = CHARGE.replace("limit 500 20000\ntick 1000\n", "");
    let late = text
        .replace(" 0 ", " 1000 ")
        .replace(" 10 ", " 1010 ")
        .replace(" 20 ", " 1020 ")
        .replace(" 30 ", " 1030 ")
        .replace(" 40 ", " 1040 ");
    let svg = picture(&format!("{late}{text}tick 500\n"), WHOLE);
    assert!(
        svg.contains(": 2 closings, 2 openings, 0 refused</text>"),
        "{svg}"
    );
    for words in [
        ">2:0</text>",
        ">by the new begin</text>",
        ">2:500</text>",
        ">460 ms since the last sound sample (ii)</text>",
    ] {
        assert!(svg.contains(words), "{words}\n{svg}");
    }
}

#[test]
fn of_a_long_name_the_end_is_shown() {
    let log = Log::of(b"begin 0 32000 0 no\n").unwrap_or_else(|unfit| panic!("{unfit}"));
    let name = format!("{}/bay7.log", "long".repeat(50));
    let svg = plot(&log, &name, WHOLE).unwrap_or_else(|error| panic!("{error}"));
    assert!(
        svg.contains("long/bay7.log</text>") && !svg.contains(&name),
        "{svg}"
    );
}
