//! Marks that crowd: the numbers of openings, measured currents, refused calls; and the words for all of them.

use chuldariin_desk::plot::WHOLE;
use drawn::{picture, strip, texts, words};
use tool::CHARGE;

mod drawn;
mod tool;

/// A charge that is closed again at each of these times, and opened 100 ms later.
fn openings(times: &[u64]) -> String {
    let mut log = CHARGE.replace("3000 no", "1000 no");
    log.push_str("tick 150\n");
    for time in times {
        let (second, later) = (time + 10, time + 110);
        log.push_str(&format!(
            "sample {time} 6000 -12000\nsample {second} 6000 -12000\ntick {later}\n"
        ));
    }
    log
}

/// The badges of the openings.
fn badges(svg: &str) -> Vec<(f64, String)> {
    texts(svg, 79.0)
}

#[test]
fn badges_without_room_share_one() {
    // One at the start, five in a row, and one far from all.
    let log = openings(&[60_000, 61_200, 62_400, 63_600, 64_800, 199_000]);
    let svg = picture(&log, WHOLE);
    let shown: Vec<String> = badges(&svg).into_iter().map(|badge| badge.1).collect();
    assert_eq!(shown, ["1", "2-6", "7"]);
}

/// However many there are, each is in one badge, and no badge covers another.
#[test]
fn no_badge_is_dropped() {
    let times: Vec<u64> = (2..400)
        .map(|place| place * 1_500 + place % 7 * 40)
        .collect();
    let svg = picture(&openings(&times), WHOLE);
    let badges = badges(&svg);
    let mut next = 1;
    for (_, words) in &badges {
        let (first, last) = words.split_once('-').unwrap_or((words, words));
        assert_eq!(first.parse(), Ok(next), "{words}");
        next = last.parse::<u64>().expect("a number") + 1;
    }
    assert_eq!(next, 400);
    let half = |words: &str| 9.0 + 4.0 * (words.len() as f64 - 2.0).max(0.0);
    let apart = |two: &[(f64, String)]| two[1].0 - two[0].0 >= half(&two[0].1) + half(&two[1].1);
    assert!(badges.windows(2).all(apart), "{badges:?}");
}

/// A dot behind a line is seen, a line behind dots is not.
#[test]
fn dots_do_not_cover_the_lines() {
    for measure in ["measure 50 31980", "measure 50 31980 1000 1000"] {
        let svg = picture(&format!("{CHARGE}{measure}\ntick 60\n"), WHOLE);
        let lines: Vec<&str> = svg.lines().collect();
        let line = |class: &str| {
            let end = format!("class=\"{class}\"/>");
            let found = |line: &&str| line.starts_with("<path") && line.ends_with(&end);
            lines.iter().position(found).expect("a line")
        };
        let dot = |line: &&str| line.starts_with("<circle") && !line.contains("\"dot\"");
        let in_panel = |line: &&str| line.contains("cy=\"435.") || line.contains("cy=\"528.");
        let dots: Vec<usize> = (0..lines.len())
            .filter(|&place| dot(&lines[place]) && in_panel(&lines[place]))
            .collect();
        let last = *dots.last().expect("a dot");
        assert!(
            last < line("announced") && last < line("limit"),
            "{measure}"
        );
    }
}

#[test]
fn refusals_are_numbered() {
    // A bad reading every 10 ms for a second, then a limit that is too large, alone.
    let samples: String = (100..1_100)
        .step_by(10)
        .map(|time| format!("sample {time} 16000 -12000\n"))
        .collect();
    let svg = picture(
        &format!("{CHARGE}{samples}limit 5000 90000\ntick 10000\n"),
        WHOLE,
    );
    let parts = strip(&svg, 648.0);
    let titles: Vec<&str> = parts.iter().map(|part| part.title.as_str()).collect();
    assert_eq!(
        titles,
        [
            "refused 5: a reading out of range; 100 calls",
            "refused 13: a limit too large: the load manager, or its scaling; 1 call"
        ]
    );
    assert_eq!(words(&svg, 661.0)[1..], ["5 (100)", "13"]);
}

/// Refusals of two numbers in turn can't be told apart: one part has both.
#[test]
fn refusals_in_turn_are_few_parts() {
    let calls: String = (0..50_000)
        .map(|place| match place % 2 {
            0 => format!("sample {} 16000 -12000\n", 100 + place),
            _ => format!("limit {} 90000\n", 100 + place),
        })
        .collect();
    let svg = picture(&format!("{CHARGE}{calls}"), WHOLE);
    let [part] = strip(&svg, 648.0).try_into().expect("one part");
    assert!(
        part.title
            .starts_with("refused 5: a reading out of range; 25,000 calls; refused 13: "),
        "{part:?}"
    );
    assert_eq!(words(&svg, 661.0)[1..], ["5,13 (50,000)"]);
}

/// A picture without a pointer tells its letters and numbers in words.
#[test]
fn the_words_of_what_occurs() {
    let log = format!("{CHARGE}fault 50 3\nfault 60 4\nlimit 70 90000\ntick 1000\n");
    let svg = picture(&log, WHOLE);
    for words in [
        ">B plugged in; C ready; U nothing settled; F a fault is latched; 2 wave driven<",
        ">3 residual current; 4 welded contact<",
        ">13 a limit too large: the load manager, or its scaling<",
    ] {
        assert!(svg.contains(words), "{words}\n{svg}");
    }
    // What does not occur has none.
    let svg = picture(&log, (0, 45));
    assert!(
        !svg.contains("residual current") && !svg.contains("a limit too large"),
        "{svg}"
    );
    let all = "begin 0 32000 0 no\nsample 1 12000 12000\nsample 2 12000 12000\nsample 3 3000 3000\nsample 4 3000 3000\n\
               sample 5 0 0\nsample 6 0 0\ntick 7\n";
    let svg = picture(all, WHOLE);
    let words = ">A no van; D ready and wants ventilation; E short circuit or no power; U nothing settled; 1 steady<";
    assert!(svg.contains(words), "{svg}");
}
