//! The logs of examples/: what their replay shows, and their pictures.
//!
//! `examples/replayed/NAME.txt` is the replay of NAME.log, of a long log only the changes, and NAME.svg its picture. To write them anew:
//! `CHULDARIIN_WRITE=1 cargo test --release --manifest-path host/Cargo.toml -p chuldariin-desk --test examples`, and look at the difference.

use chuldariin_desk::input::Log;
use chuldariin_desk::lists::{Ask, Moment};
use chuldariin_desk::paint::Paint;
use chuldariin_desk::plot::{plot, WHOLE};
use chuldariin_desk::progress::Progress;
use chuldariin_desk::replay::{lists_of, replay, Only, Show};
use chuldariin_desk::why::{why, At};
use std::fs;
use std::path::PathBuf;

/// A log with more calls is long.
const LONG: u64 = 60;

fn examples() -> PathBuf {
    PathBuf::from(env!("CARGO_MANIFEST_DIR")).join("../../examples")
}

/// Name and content of each log, and the demo's.
fn logs() -> Vec<(String, Log)> {
    let mut logs = vec![(
        "day".to_string(),
        read(chuldariin_desk::demo::day().as_bytes()),
    )];
    for entry in fs::read_dir(examples()).expect("the folder examples/") {
        let path = entry.expect("an entry").path();
        if path.extension().is_some_and(|extension| extension == "log") {
            let name = path
                .file_stem()
                .expect("a name")
                .to_string_lossy()
                .into_owned();
            logs.push((name, read(&fs::read(&path).expect("a log"))));
        }
    }
    assert!(logs.len() > 5);
    logs
}

fn read(text: &[u8]) -> Log {
    Log::of(text).unwrap_or_else(|unfit| panic!("{unfit}"))
}

fn shown(log: &Log) -> String {
    let only = match log.shape.calls > LONG {
        true => Only::Changes,
        false => Only::All,
    };
    let mut out = Vec::new();
    replay(log, WHOLE, Show::text(only), Progress::none(), &mut out).expect("a replay");
    String::from_utf8(out).expect("UTF-8")
}

#[test]
fn each_log_is_replayed_as_it_was() {
    for (name, log) in logs() {
        let path = examples().join("replayed").join(format!("{name}.txt"));
        if std::env::var_os("CHULDARIIN_WRITE").is_some() {
            fs::write(&path, shown(&log)).expect("a file");
        }
        let expected = fs::read_to_string(&path).unwrap_or_default();
        assert_eq!(shown(&log), expected, "{}", path.display());
    }
}

/// The pictures that the documents show.
#[test]
fn each_shown_picture_is_as_it_was() {
    for (name, log) in logs() {
        let path = examples().join("replayed").join(format!("{name}.svg"));
        let title = format!("{name}.log");
        if path.exists() {
            let svg = plot(&log, &title, WHOLE).expect("a picture");
            if std::env::var_os("CHULDARIIN_WRITE").is_some() {
                fs::write(&path, &svg).expect("a file");
            }
            let same = fs::read_to_string(&path).is_ok_and(|expected| expected == svg);
            assert!(same, "{}", path.display());
        }
    }
}

#[test]
fn each_replay_has_its_log() {
    let names: Vec<String> = logs().into_iter().map(|log| log.0).collect();
    for entry in fs::read_dir(examples().join("replayed")).expect("the folder") {
        let path = entry.expect("an entry").path();
        let name = path
            .file_stem()
            .expect("a name")
            .to_string_lossy()
            .into_owned();
        assert!(names.contains(&name), "{}", path.display());
    }
}

#[test]
fn each_time_of_a_log_has_its_why() {
    for (name, log) in logs() {
        let lists = lists_of(&log).expect("a replay");
        let list = lists.get(lists.count()).expect("a list");
        for part in 0..20 {
            let time = list.begin + (list.end - list.begin) / 20 * part;
            let ask = Ask::In(lists.now(time));
            let mut out = Vec::new();
            why(&log, At::Moment(ask), Paint::none(), &mut out).expect("an answer");
            let answer = String::from_utf8(out).expect("UTF-8");
            let ends = ["The contactor waits for", "The contactor is closed since"];
            assert!(
                ends.iter().any(|end| answer.contains(end)),
                "{name}: {answer}"
            );
        }
    }
}

#[test]
fn each_picture_is_well_formed() {
    for (name, log) in logs() {
        let svg = plot(&log, "a < b & \"c\" \u{1b}", WHOLE).expect("a picture");
        well_formed(&svg, &name);
        let lists = lists_of(&log).expect("a replay");
        let list = lists.get(1).expect("a list");
        let half = list.begin + (list.end - list.begin) / 2;
        let ask = |time| Some(Ask::In(Moment { list: 1, time }));
        let part = plot(&log, &name, (ask(list.begin), ask(half)));
        well_formed(&part.expect("a picture of a part"), &name);
    }
}

/// A clock that starts anew, one time for all calls, and times at the far end.
#[test]
fn unusual_times_have_their_picture() {
    for text in [
        "begin 500 32000 0 no\ntick 900\nbegin 100 16000 0 yes\ntick 300\nbegin 300 6000 0 no\n",
        "begin 7 32000 0 no\ntick 7\n",
        "begin 7 32000 0 no\ntick 1000000000000\ntick 5\n",
    ] {
        let svg = plot(&read(text.as_bytes()), "unusual", WHOLE).expect("a picture");
        well_formed(&svg, text);
        assert!(!svg.contains("NaN") && !svg.contains("inf"), "{text}");
    }
}

/// A long log has no more points than the picture has pixels for.
#[test]
fn a_long_log_has_a_small_picture() {
    let mut text = String::from("begin 0 32000 3000 no\nlimit 0 32000\n");
    for call in 1..100_000 {
        let time = call * 10;
        text.push_str(&match call % 7 {
            0 => format!("limit {time} {}\n", 6_000 + call % 26_000),
            1 => format!("measure {time} {}\n", call % 40_000),
            2 => format!("tick {}\n", time / 2),
            _ => format!(
                "sample {time} {} {}\n",
                5_000 + call * 31 % 5_000,
                -12_000 + call % 3_000
            ),
        });
    }
    let svg = plot(&read(text.as_bytes()), "long", WHOLE).expect("a picture");
    well_formed(&svg, "long");
    assert!(svg.len() < 1_500_000, "{} bytes", svg.len());
}

/// Each element that opens closes, and no letter stands where XML has no place for it.
fn well_formed(svg: &str, name: &str) {
    let mut open: Vec<&str> = Vec::new();
    for part in svg.split('<').skip(1) {
        let (tag, _) = part
            .split_once('>')
            .unwrap_or_else(|| panic!("{name}: <{part}"));
        let word = tag
            .trim_start_matches('/')
            .split([' ', '/'])
            .next()
            .unwrap_or("");
        if tag.starts_with('/') {
            assert_eq!(open.pop(), Some(word), "{name}: <{tag}>");
        } else if !tag.ends_with('/') {
            open.push(word);
        }
        assert_eq!(tag.matches('"').count() % 2, 0, "{name}: <{tag}>");
        for sign in part.split('&').skip(1) {
            let known = ["amp;", "lt;", "gt;", "quot;"];
            assert!(
                known.iter().any(|end| sign.starts_with(end)),
                "{name}: &{sign}"
            );
        }
        assert!(
            !part.chars().any(|c| c.is_control() && c != '\n'),
            "{name}: {part:?}"
        );
    }
    assert!(open.is_empty(), "{name}: {open:?}");
}
