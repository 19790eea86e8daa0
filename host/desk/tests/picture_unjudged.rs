//! Times in which nothing was judged: refused calls, and silence.

use chuldariin_desk::plot::WHOLE;
use drawn::{drawn, picture, strip, words, Rect};
use std::time::Instant;
use tool::CHARGE;

mod drawn;
mod tool;

/// Closed at 40, and every sample after that refused, up to an hour.
fn refused_hour() -> String {
    let refused = (60..=3_599_980).step_by(20);
    let refused: String = refused
        .map(|time| format!("sample {time} 16000 -12000\n"))
        .collect();
    format!("{CHARGE}{refused}")
}

/// What is hatched in the contactor's strip.
fn hatched(svg: &str) -> Vec<Rect> {
    let parts = strip(svg, 552.0).into_iter();
    parts.filter(|part| part.fill == "url(#unjudged)").collect()
}

#[test]
fn refused_calls_stand_at_their_own_times() {
    let svg = picture(&refused_hour(), WHOLE);
    let heading = ">180,003 calls, 0 to 3,599,980 ms: 1 closing, 0 openings, 179,997 refused<";
    assert!(svg.contains(heading), "{svg}");
    let [part] = strip(&svg, 648.0).try_into().expect("one part");
    assert!(part.x < 92.1 && part.x + part.width > 1_163.9, "{part:?}");
    // The command stands as it was.
    let commanded = strip(&svg, 552.0);
    assert!(commanded
        .iter()
        .any(|part| part.title == "closed" && part.width > 1_071.0));
    let [hatch] = hatched(&svg).try_into().expect("one hatch");
    assert!(hatch.x + hatch.width > 1_163.9, "{hatch:?}");
    assert_eq!(
        hatch.title,
        "closed, not judged: the last accepted call is at 40; \
         no accepted call for 3,599,940 ms while closed: the 80 ms rule is not judged"
    );
    assert!(words(&svg, 565.0).contains(&"closed, not judged".to_string()));
}

#[test]
fn an_hour_of_refusals_is_small_and_quick() {
    let log = refused_hour();
    let start = Instant::now();
    let svg = picture(&log, WHOLE);
    assert!(svg.len() < 20_000, "{} bytes", svg.len());
    assert!(start.elapsed().as_secs() < 5, "{:?}", start.elapsed());
}

#[test]
fn a_part_without_an_accepted_call_is_drawn() {
    let svg = picture(&refused_hour(), (60, 400));
    assert!(
        svg.contains(">18 calls, 60 to 400 ms: 0 closings, 0 openings, 18 refused<"),
        "{svg}"
    );
    assert_eq!(strip(&svg, 648.0).len(), 18);
    let [hatch] = hatched(&svg).try_into().expect("one hatch");
    assert_eq!((hatch.x, hatch.width), (92.0, 1_072.0));
}

/// A time that is refused itself says nothing: its call stands at the latest one before it.
#[test]
fn a_refused_time_has_no_place_of_its_own() {
    let log = format!("{CHARGE}sample 100 6000 -12000\ntick 50\ntick 2000000000000\ntick 140\n");
    let svg = picture(&log, WHOLE);
    assert!(svg.contains(">10 calls, 0 to 140 ms:"), "{svg}");
    let x = 92.0 + 1_072.0 * 100.0 / 140.0;
    let [part] = strip(&svg, 648.0).try_into().expect("one part");
    assert!((part.x + part.width / 2.0 - x).abs() < 0.02, "{part:?}");
}

#[test]
fn nothing_lies_before_the_log_or_after_it() {
    let late = CHARGE
        .replace("begin 0", "begin 5")
        .replace("limit 0", "limit 5");
    for (part, words) in [
        ((0, 3), "--to 3: the log begins at 5; expected a later --to"),
        (
            (41, 50),
            "--from 41: the log ends at 40; expected an earlier --from",
        ),
        (
            (30, 20),
            "--from 30 is after --to 20; expected an earlier --from",
        ),
    ] {
        assert_eq!(drawn(&late, part), Err(words.to_string()), "{part:?}");
    }
    let nothing = drawn("begin 0 1 0 no\n", WHOLE);
    assert_eq!(
        nothing,
        Err("there is nothing to draw: no call of the log is accepted: nothing has begun; line 1 is refused by 1: rated 1 mA is not 6,000 to 80,000".to_string())
    );
    // An end outside of the log is that of the log.
    let svg = picture(&late, (0, 9_000));
    assert!(svg.contains(">6 calls, 5 to 40 ms:"), "{svg}");
}

#[test]
fn silence_is_hatched() {
    let svg = picture(&format!("{CHARGE}tick 3600000\n"), WHOLE);
    let [hatch] = hatched(&svg).try_into().expect("one hatch");
    assert!(hatch.width > 1_071.0, "{hatch:?}");
    assert_eq!(
        hatch.title,
        "no accepted call for 3,599,960 ms while closed: the 80 ms rule was not judged"
    );
    assert_eq!(svg.matches("<pattern id=\"unjudged\"").count(), 1);
    assert!(svg.contains(">hatched: no accepted call, so nothing was judged<"));
    // In the middle of it, too, where the part has no call.
    let [hatch] = hatched(&picture(&format!("{CHARGE}tick 3600000\n"), (1_000, 2_000)))
        .try_into()
        .expect("one hatch");
    assert_eq!((hatch.x, hatch.width), (92.0, 1_072.0));
}

/// 100 ms are no silence, 101 are; with the contactor open none is.
#[test]
fn only_silence_while_closed_is_hatched() {
    for (calls, hatches) in [
        ("tick 140\ntick 1000\n", 0),
        ("tick 141\ntick 1000\n", 1),
        ("tick 141\ntick 1000\nlimit 90000 90000\n", 2),
    ] {
        let svg = picture(&format!("{CHARGE}{calls}"), WHOLE);
        assert_eq!(hatched(&svg).len(), hatches, "{calls}");
        assert_eq!(svg.contains("<pattern"), hatches > 0, "{calls}");
    }
    // The second is open, and ends with the log.
    let svg = picture(
        &format!("{CHARGE}tick 141\ntick 1000\nlimit 90000 90000\n"),
        WHOLE,
    );
    assert_eq!(
        hatched(&svg)[1].title,
        "open, not judged: the last accepted call is at 1000"
    );
}

/// A silence that is narrower than a pixel is seen.
#[test]
fn a_short_silence_is_seen() {
    let svg = picture(&format!("{CHARGE}tick 141\ntick 10000000\n"), WHOLE);
    let [hatch] = hatched(&svg).try_into().expect("one hatch");
    assert!(hatch.width >= 3.0, "{hatch:?}");
}

/// Calls that are refused for their own times while closed: there is no place for them, but it is seen that they are there.
#[test]
fn a_clock_that_went_wrong_while_closed() {
    let samples = |from: u64, to: u64| -> String {
        let times = (from..=to).step_by(20);
        times
            .map(|time| format!("sample {time} 6000 -12000\n"))
            .collect()
    };
    let words = "at least 10,000 ms not judged, by the refused calls' own times";
    let stuck = format!("{CHARGE}{}", samples(1_794_900_000_000, 1_794_900_010_000));
    let svg = picture(&stuck, WHOLE);
    assert!(
        svg.contains(words) && svg.contains("url(#unjudged)"),
        "{svg}"
    );
    assert!(svg.contains("closed, not judged: the last accepted call is at 40; no accepted call for at least 10,000 ms while closed"), "{svg}");
    // The clock steps back, and comes to where it was.
    let back = format!(
        "{CHARGE}{}{}sample 10080 6000 -12000\n",
        samples(60, 10_060),
        samples(60, 10_060)
    );
    let svg = picture(&back, WHOLE);
    assert!(
        svg.contains("at least 9,980 ms not judged") && svg.contains("url(#unjudged)"),
        "{svg}"
    );
    // A part in which calls name its times that were made at another.
    let jump = format!("{CHARGE}tick 900000000000\n{}", samples(60, 1_060));
    let svg = picture(&jump, (0, 500));
    assert!(
        svg.contains("23 calls at times of this part refused for these, and made at another"),
        "{svg}"
    );
}
