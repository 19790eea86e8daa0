//! The command `summary`: many logs, sorted by trouble; and logs that gzip has packed.

use std::path::{Path, PathBuf};
use std::process::{Command, Output};
use tool::{file, line, name, run, text, tool, CHARGE};

mod tool;

/// Logs from the worst to the best: not replayed, nothing begun, a welded contact, a reply that differs, a worn plug, a silence, a
/// refusal, a van that ends its charge.
fn logs() -> Vec<(&'static str, String)> {
    vec![
        ("torn.log", "step\n".to_string()),
        ("epoch.log", "begin 1763000000000 32000 0 no\n".to_string()),
        (
            "welded.log",
            format!("{CHARGE}contact 45 closed\ntick 121\ntick 300\n"),
        ),
        ("differs.log", format!("{CHARGE}told C2 533 open 0 1\n")),
        (
            "worn.log",
            format!("{CHARGE}sample 50 7600 -12000\nsample 60 7600 -12000\n"),
        ),
        ("silent.log", format!("{CHARGE}sample 400 6000 -12000\n")),
        ("refused.log", format!("{CHARGE}limit 50 80001\n")),
        (
            "usual.log",
            format!("{CHARGE}sample 50 9000 -12000\nsample 60 9000 -12000\n"),
        ),
    ]
}

fn files() -> Vec<PathBuf> {
    logs()
        .iter()
        .map(|(name, log)| file(name, log.as_bytes()))
        .collect()
}

fn summary(files: &[PathBuf], more: &[&str]) -> Output {
    let mut words = vec!["summary"];
    words.extend(files.iter().map(|path| name(path)));
    words.extend(more);
    run(&words, b"")
}

/// The names of the logs, in the order of their rows.
fn order(shown: &str) -> Vec<String> {
    let rows = shown.lines().skip(1);
    let last = |row: &str| {
        let path = row
            .split(['/', ':', ' '])
            .find(|part| part.ends_with(".log"));
        path.unwrap_or("").to_string()
    };
    rows.map(last).collect()
}

#[test]
fn the_worst_log_stands_first() {
    let expected: Vec<&str> = logs().iter().map(|log| log.0).collect();
    let mut files = files();
    for _ in 0..3 {
        files.rotate_left(2);
        let output = summary(&files, &[]);
        assert_eq!(output.status.code(), Some(2), "one of them is not replayed");
        let shown = text(&output.stdout);
        assert_eq!(order(&shown), expected, "{shown}");
        line(&shown, "NOT REPLAYED");
        assert!(
            shown.contains("torn.log: line 1: 'step' is no call;"),
            "{shown}"
        );
    }
}

#[test]
fn all_is_well_if_all_are_replayed() {
    let output = summary(&files()[1..], &[]);
    assert_eq!(
        (output.status.code(), text(&output.stderr)),
        (Some(0), String::new())
    );
    let shown = text(&output.stdout);
    let row = shown
        .lines()
        .find(|row| row.ends_with("usual.log"))
        .expect("a row");
    let cells: Vec<&str> = row.split_whitespace().collect();
    // Begins, calls, refused, closings, openings and their causes, trouble, closed, spacing, silence, differ, contact.
    assert_eq!(
        cells[..12],
        [
            "1",
            "8",
            "0",
            "1",
            "1",
            "1,0,0,0,0",
            "0",
            "20",
            "-",
            "0",
            "-",
            "-"
        ]
    );
}

#[test]
fn a_file_that_is_not_there_has_its_row() {
    let mut all = files();
    all.push(PathBuf::from("nowhere.log"));
    let output = summary(&all, &["--format", "json"]);
    assert_eq!(output.status.code(), Some(2));
    let shown = text(&output.stdout);
    assert_eq!(shown.lines().count(), all.len());
    let row = shown
        .lines()
        .find(|row| row.contains("nowhere.log"))
        .expect("a row");
    assert!(
        row.contains(
            "\"error\":\"can't be read: No such file or directory (os error 2)\",\"begins\":null"
        ),
        "{row}"
    );
}

/// A summary tells what the replay's own summary does.
#[test]
fn many_logs_side_by_side_are_as_one_by_one() {
    let list = |number: u64| {
        let mut log = CHARGE.to_string();
        for time in (60..20_000 + number * 100).step_by(20) {
            log.push_str(&format!(
                "sample {time} {} -12000\n",
                5_000 + time * number % 3_000
            ));
        }
        log
    };
    let files: Vec<PathBuf> = (1..=12)
        .map(|number| file(&format!("{number}.log"), list(number).as_bytes()))
        .collect();
    let together = text(&summary(&files, &["--format", "json"]).stdout);
    for path in &files {
        let alone = text(&summary(std::slice::from_ref(path), &["--format", "json"]).stdout);
        assert!(together.contains(alone.trim_end()), "{alone}");
    }
}

fn gzip(path: &Path) -> PathBuf {
    let packed = Command::new("gzip").arg("-k").arg(path).status();
    assert!(
        packed.is_ok_and(|status| status.success()),
        "gzip packs {}",
        path.display()
    );
    PathBuf::from(format!("{}.gz", path.display()))
}

#[test]
fn a_log_that_gzip_has_packed() {
    let plain = file("packed.log", CHARGE.as_bytes());
    let packed = gzip(&plain);
    for words in [
        &["replay"][..],
        &["why", "--at", "45"],
        &["summary", "--format", "json"],
    ] {
        let with = |path: &Path| {
            let mut words = words.to_vec();
            words.push(name(path));
            let output = run(&words, b"");
            assert_eq!(output.status.code(), Some(0), "{}", text(&output.stderr));
            text(&output.stdout).replace(name(path), "LOG")
        };
        assert_eq!(with(&packed), with(&plain));
    }
}

#[test]
fn gzip_that_is_not_there_or_not_content() {
    let packed = gzip(&file("packed.log", CHARGE.as_bytes()));
    let mut without = tool();
    without
        .args(["replay", name(&packed)])
        .env("PATH", "/nowhere");
    let output = without.output().expect("the tool ends");
    assert_eq!(output.status.code(), Some(2));
    assert_eq!(
        text(&output.stderr),
        format!("chuldariin: {}: can't be read: gzip is not on the PATH; install it, or unpack the log first\n", packed.display())
    );
    let not_packed = file("plain.log.gz", CHARGE.as_bytes());
    let nothing = run(&["replay", name(&not_packed), "--skip-bad"], b"");
    assert_eq!(
        nothing.status.code(),
        Some(2),
        "there is nothing to skip to"
    );
    let output = run(&["replay", name(&not_packed)], b"");
    assert_eq!(
        (output.status.code(), text(&output.stdout)),
        (Some(2), String::new())
    );
    assert!(
        text(&output.stderr).contains("not in gzip format"),
        "{}",
        text(&output.stderr)
    );
}

/// A packed log that was cut: nothing is replayed, or what is left of it.
#[test]
fn a_packed_log_that_was_cut() {
    let long = format!(
        "{CHARGE}{}",
        (50..90_000)
            .step_by(10)
            .map(|time| format!("sample {time} {} -12000\n", 5_500 + time * 7 % 1_000))
            .collect::<String>()
    );
    let packed = gzip(&file("long.log", long.as_bytes()));
    let bytes = std::fs::read(&packed).expect("a file");
    let cut = file("cut.log.gz", &bytes[..bytes.len() / 2]);
    let output = run(&["replay", name(&cut), "--only", "changes"], b"");
    assert_eq!(
        (output.status.code(), text(&output.stdout)),
        (Some(2), String::new())
    );
    let output = run(
        &["replay", name(&cut), "--only", "changes", "--skip-bad"],
        b"",
    );
    assert_eq!(output.status.code(), Some(0), "{}", text(&output.stderr));
    assert!(
        text(&output.stderr).contains("the log can't be read to its end: gzip says: "),
        "{}",
        text(&output.stderr)
    );
    line(
        &text(&output.stdout),
        "skipped   what follows: the log can't be read further: gzip says:",
    );
}

/// Only a van that ends its charge or is unplugged is no trouble, and only if that is all.
#[test]
fn what_is_trouble() {
    let trouble = |calls: &str| {
        let log = file("a.log", format!("{CHARGE}{calls}").as_bytes());
        let row = text(&summary(&[log], &["--format", "json"]).stdout);
        let (_, rest) = row.split_once("\"opened_trouble\":").expect("a field");
        rest.split(',').next().map(str::to_string)
    };
    for (calls, count) in [
        ("sample 50 9000 -12000\nsample 60 9000 -12000\n", "0"),
        ("sample 50 12000 -12000\nsample 60 12000 -12000\n", "0"),
        ("sample 50 12000 -12000\nsample 60 9000 -12000\n", "1"),
        // Back in B, and no sound sample for more than 80 ms.
        ("sample 50 9000 -12000\nsample 125 9000 -12000\n", "1"),
        ("tick 121\n", "1"),
        ("begin 50 32000 0 no\n", "1"),
    ] {
        assert_eq!(trouble(calls).as_deref(), Some(count), "{calls}");
    }
}

/// Equal logs stand by name.
#[test]
fn equal_trouble_is_sorted_by_name() {
    let folder = file("b.log", CHARGE.as_bytes());
    let other = folder.with_file_name("a.log");
    std::fs::write(&other, CHARGE).expect("a log");
    let shown = text(&summary(&[folder, other], &[]).stdout);
    assert_eq!(order(&shown), ["a.log", "b.log"]);
}

/// A log that was packed and lost its ending says so.
#[test]
fn a_packed_log_by_another_name() {
    let packed = gzip(&file("packed.log", CHARGE.as_bytes()));
    let renamed = packed.with_extension("bin");
    std::fs::rename(&packed, &renamed).expect("another name");
    let output = run(&["replay", name(&renamed)], b"");
    assert_eq!(output.status.code(), Some(2));
    assert!(
        text(&output.stderr)
            .ends_with("the log is packed by gzip; expected a name that ends in .gz\n"),
        "{}",
        text(&output.stderr)
    );
}
