//! Data out: CSV by RFC 4180, and JSON with one object a line.

use std::collections::BTreeMap;
use tool::{answer, run, run_file, text, CHARGE};

mod tool;

/// The fields of a replay's row, in their order. Programs rely on them: only add behind the last.
const REPLAY: &str = "file,line,list,time,wall,what,text,refusal,state,wave,announced,contactor,fault,faults,closings,line1,line2,line3,grant,high,low,band,verdict,event,causes,unsound,silence,differences,contact,contact_fails,contact_ms,notes";
const SUMMARY: &str = "file,error,begins,calls,refused,refusals,closings,openings,opened_i,opened_ii,opened_iii,opened_iv,opened_v,opened_begin,opened_trouble,span,closed,spacing,spacing_pause,silences,silence_longest,told,told_differ,contact_moved,welded,welded_longest,not_closing,not_closing_longest,from_wall,to_wall,end,end_refused,bad_lines,before_begin,cut";

/// A log with all kinds of lines.
fn log() -> String {
    format!(
        "# a \"comment\", and no row\n{CHARGE}told C2 533 open 0 1 7 - -\nclock 45 2026-11-16T03:40:00Z\npanel 46 says \"go\", = fast\ncontact 47 open\nmeasure 50 1 2 3\nlimit 60 80001\nsample 70 9000 -12000\nsample 80 9000 -12000\nfault 90 4\nbegin 100 1 0 no\nbegin 200 16000 0 yes digital\nlink 210 6000\n"
    )
}

/// Rows of CSV as RFC 4180 has them: quoted fields may have anything, and quotes twice.
fn csv(text: &str) -> Vec<Vec<String>> {
    let (mut rows, mut row, mut field) = (Vec::new(), Vec::new(), String::new());
    let (mut quoted, mut chars) = (false, text.chars().peekable());
    while let Some(c) = chars.next() {
        match (quoted, c) {
            (true, '"') if chars.peek() == Some(&'"') => {
                chars.next();
                field.push('"');
            }
            (_, '"') => quoted = !quoted,
            (false, ',') => row.push(std::mem::take(&mut field)),
            (false, '\r') => {
                assert_eq!(chars.next(), Some('\n'), "lines end in CR LF");
                row.push(std::mem::take(&mut field));
                rows.push(std::mem::take(&mut row));
            }
            (false, '\n') => panic!("a LF without its CR"),
            (_, c) => field.push(c),
        }
    }
    assert!(row.is_empty() && field.is_empty(), "the last line ends");
    rows
}

/// A flat object; numbers, texts, booleans and null stay as they are written.
fn json(line: &str) -> BTreeMap<String, String> {
    let mut fields = BTreeMap::new();
    let mut rest = line
        .strip_prefix('{')
        .and_then(|line| line.strip_suffix('}'))
        .expect("an object");
    while !rest.is_empty() {
        let (name, behind) = json_text(rest);
        let behind = behind.strip_prefix(':').expect("a value");
        let (value, behind) = match behind.starts_with('"') {
            true => {
                let (_, after) = json_text(behind);
                (&behind[..behind.len() - after.len()], after)
            }
            false => behind.split_at(behind.find(',').unwrap_or(behind.len())),
        };
        assert!(
            fields.insert(name.to_string(), value.to_string()).is_none(),
            "{name} twice"
        );
        rest = behind.strip_prefix(',').unwrap_or(behind);
    }
    fields
}

/// The text at the start, without its quotes, and what follows.
fn json_text(text: &str) -> (&str, &str) {
    let text = text.strip_prefix('"').expect("a text");
    let mut escaped = false;
    for (place, c) in text.char_indices() {
        assert!(!c.is_control(), "{text}");
        match (escaped, c) {
            (false, '"') => return (&text[..place], &text[place + 1..]),
            (false, '\\') => escaped = true,
            _ => escaped = false,
        }
    }
    panic!("no end: {text}")
}

/// The value of a field in a row.
fn value<'a>(rows: &'a [Vec<String>], row: usize, name: &str) -> &'a str {
    let place = rows[0].iter().position(|field| field == name).expect(name);
    &rows[row][place]
}

#[test]
fn rows_of_csv() {
    let rows = csv(&answer(&["replay", "-", "--format", "csv"], &log()));
    assert_eq!(rows[0].join(","), REPLAY);
    assert!(rows.iter().all(|row| row.len() == rows[0].len()));
    let place = |name: &str| rows[0].iter().position(|field| field == name).expect(name);
    let row = |line: &str| rows.iter().find(|row| row[1] == line).expect("a row");
    let value = |line: &str, name: &str| row(line)[place(name)].clone();
    assert_eq!(rows.len(), 1 + 18, "one row a call or record");
    for (line, name, expected) in [
        ("2", "what", "begin"),
        ("2", "text", "begin 0 32000 3000 no"),
        ("2", "state", "U"),
        ("2", "wall", ""),
        ("7", "time", "40"),
        ("7", "event", "closed"),
        ("7", "verdict", "proven"),
        ("7", "band", "C"),
        ("7", "high", "6000"),
        ("7", "low", "-12000"),
        ("7", "wave", "533"),
        ("7", "announced", "31980"),
        ("7", "contactor", "closed"),
        ("7", "closings", "1"),
        ("8", "what", "told"),
        (
            "8",
            "differences",
            "contactor open, commanded closed; line 1: 7 mA, commanded 0 mA",
        ),
        ("8", "contactor", ""),
        ("9", "what", "clock"),
        ("10", "text", "panel 46 says \"go\", = fast"),
        ("10", "wall", "2026-11-16T03:40:00.001Z"),
        ("12", "line2", "2"),
        ("13", "refusal", "13"),
        ("13", "contactor", "closed"),
        ("13", "wall", "2026-11-16T03:40:00.015Z"),
        ("15", "event", "opened"),
        ("15", "causes", "i"),
        ("15", "unsound", "van back in B"),
        ("16", "faults", "4"),
        ("16", "fault", "4"),
        ("17", "refusal", "1"),
        ("17", "state", ""),
        ("18", "list", "2"),
        ("18", "grant", "0"),
        ("19", "grant", "6000"),
        ("12", "grant", ""),
    ] {
        assert_eq!(value(line, name), expected, "line {line}, {name}");
    }
    assert!(value("15", "notes").starts_with("OPENED: two unsound samples in a row, van back in B"));
}

#[test]
fn objects_of_json() {
    let shown = answer(&["replay", "-", "--format=json"], &log());
    let rows: Vec<BTreeMap<String, String>> = shown.lines().map(json).collect();
    assert_eq!(rows.len(), 18);
    let mut names: Vec<&str> = REPLAY.split(',').collect();
    names.sort_unstable();
    for row in &rows {
        assert!(row.keys().eq(names.iter()), "{row:?}");
    }
    let row = |line: &str| rows.iter().find(|row| row["line"] == line).expect("a row");
    for (line, name, value) in [
        ("7", "time", "40"),
        ("7", "contactor", "\"closed\""),
        ("7", "low", "-12000"),
        ("7", "wall", "null"),
        ("10", "text", "\"panel 46 says \\\"go\\\", = fast\""),
        ("10", "refusal", "null"),
        ("16", "faults", "\"4\""),
        ("17", "wave", "null"),
        ("15", "causes", "\"i\""),
    ] {
        assert_eq!(row(line)[name], value, "line {line}, {name}");
    }
}

/// CSV and JSON tell the same.
#[test]
fn both_forms_have_the_same_values() {
    let rows = csv(&answer(&["replay", "-", "--format", "csv"], &log()));
    let objects = answer(&["replay", "-", "--format", "json"], &log());
    for (row, object) in rows[1..].iter().zip(objects.lines().map(json)) {
        for (name, value) in rows[0].iter().zip(row).filter(|field| field.0 != "file") {
            let plain = object[name].trim_matches('"').replace("\\\"", "\"");
            assert_eq!(&plain.replace("null", ""), value, "{name}");
        }
    }
}

#[test]
fn only_changes_and_parts_are_data_too() {
    let rows = csv(&answer(
        &["replay", "-", "--format", "csv", "--only", "changes"],
        CHARGE,
    ));
    let lines: Vec<&str> = rows[1..].iter().map(|row| row[1].as_str()).collect();
    assert_eq!(lines, ["1", "4", "6"]);
    let rows = csv(&answer(
        &["replay", "-", "--format", "csv", "--from", "30"],
        CHARGE,
    ));
    assert_eq!(rows.len(), 3);
}

#[test]
fn several_logs_are_told_apart_by_their_names() {
    let (one, two) = (
        tool::file("a,b.log", CHARGE.as_bytes()),
        tool::file("two.log", CHARGE.as_bytes()),
    );
    let words = [
        "replay",
        tool::name(&one),
        tool::name(&two),
        "--format",
        "csv",
    ];
    let rows = csv(&text(&run(&words, b"").stdout));
    let files: Vec<&str> = rows
        .iter()
        .filter(|row| row[1] == "6")
        .map(|row| row[0].as_str())
        .collect();
    assert_eq!(files, [tool::name(&one), tool::name(&two)]);
    // One heading for all of them.
    assert_eq!(rows.iter().filter(|row| row[0] == "file").count(), 1);
    let shown = text(&run(&words[..3], b"").stdout);
    assert!(
        shown.starts_with(&format!("==> {} <==\n", tool::name(&one))),
        "{shown}"
    );
    assert!(
        shown.contains(&format!("\n\n==> {} <==\n", tool::name(&two))),
        "{shown}"
    );
}

#[test]
fn a_row_a_log() {
    let rows = csv(&answer(&["summary", "-", "--format", "csv"], &log()));
    assert_eq!(rows[0].join(","), SUMMARY);
    assert_eq!(rows.len(), 2);
    for (name, expected) in [
        ("error", ""),
        ("begins", "2"),
        ("calls", "14"),
        ("refused", "2"),
        ("refusals", "1:1 13:1"),
        ("closings", "1"),
        ("openings", "1"),
        ("opened_i", "1"),
        ("opened_v", "0"),
        ("opened_trouble", "0"),
        ("closed", "40"),
        ("span", "110"),
        ("spacing", ""),
        ("told", "1"),
        ("told_differ", "1"),
        ("welded", "0"),
        ("end", "open"),
        ("bad_lines", "0"),
        ("silence_longest", "0"),
    ] {
        assert_eq!(value(&rows, 1, name), expected, "{name}");
    }
    let object = answer(&["summary", "-", "--format", "json"], &log());
    let mut names: Vec<&str> = SUMMARY.split(',').collect();
    names.sort_unstable();
    assert!(json(object.trim_end()).keys().eq(names.iter()));
}

#[test]
fn a_format_that_is_none() {
    for command in ["replay", "summary"] {
        let output = run_file(&[command, "-", "--format", "xml"], CHARGE.as_bytes());
        assert_eq!(output.status.code(), Some(2));
        assert!(text(&output.stderr)
            .starts_with("chuldariin: --format 'xml'; expected text, csv or json\n"));
    }
}

/// Texts that JSON and CSV have to escape.
#[test]
fn awkward_texts() {
    let log = format!(
        "{CHARGE}panel 50 a\\b \u{1b}[2J\tc\npanel 60 say \"go\"\npanel 70 no quotes, two words\n"
    );
    let shown = answer(&["replay", "-", "--format", "json"], &log);
    assert!(
        shown.contains("\"text\":\"panel 50 a\\\\b \\u001b[2J\\tc\""),
        "{shown}"
    );
    assert!(
        shown.contains("\"text\":\"panel 60 say \\\"go\\\"\""),
        "{shown}"
    );
    shown
        .lines()
        .for_each(|line| assert_eq!(json(line).len(), 32));
    let shown = answer(&["replay", "-", "--format", "csv"], &log);
    assert!(shown.contains(",\"panel 60 say \"\"go\"\"\","), "{shown}");
    assert!(
        shown.contains(",\"panel 70 no quotes, two words\","),
        "{shown}"
    );
}

/// A heading stands above no row, too, and once above several logs.
#[test]
fn the_heading_is_always_there() {
    let (one, two) = (
        tool::file("one.log", CHARGE.as_bytes()),
        tool::file("two.log", format!("{CHARGE}tick 100\n").as_bytes()),
    );
    let words = [
        "replay",
        tool::name(&one),
        tool::name(&two),
        "--format",
        "csv",
        "--from",
        "45",
    ];
    let rows = csv(&text(&run(&words, b"").stdout));
    assert_eq!(rows[0].join(","), REPLAY);
    assert_eq!(rows.len(), 2);
}

/// Each number of a summary's row, on a log that tells them apart.
#[test]
fn every_number_of_a_row() {
    let mut log = format!(
        "tick 1\ntick 2\ntick 3\n{CHARGE}clock 40 2026-11-16T03:40:00Z\ncontact 45 closed\n"
    );
    log.push_str("told C2 533 closed 0 1\n");
    let mut call = |text: &str| log.push_str(&format!("{text}\n"));
    call("sample 50 9000 -12000");
    call("told - - closed - -");
    call("bad");
    call("sample 60 9000 -12000");
    // Open at 60; the contact stays closed until 400, and moves by itself at 2,000.
    call("contact 400 open");
    call("contact 2000 closed");
    call("contact 2030 open");
    for time in (3_000..3_100).step_by(20) {
        call(&format!("sample {time} 6000 -12000"));
    }
    // Closed at 3,060; the contact follows at 3,300, so 240 late.
    call("sample 3150 6000 -12000");
    call("sample 3230 6000 -12000");
    call("sample 3290 6000 -12000");
    call("contact 3300 closed");
    call("sample 3500 6000 -12000");
    call("fault 3510 4");
    call("limit 3520 80001");
    call("contact 3530 open");
    call("begin 5000 32000 0 no");
    let output = run_file(
        &["summary", "-", "--format", "csv", "--skip-bad"],
        log.as_bytes(),
    );
    let rows = csv(&text(&output.stdout));
    for (name, expected) in [
        ("begins", "2"),
        ("closings", "2"),
        ("openings", "2"),
        ("opened_i", "1"),
        ("opened_v", "1"),
        ("opened_begin", "0"),
        ("opened_trouble", "1"),
        ("span", "3520"),
        ("closed", "470"),
        ("spacing", "3020"),
        ("spacing_pause", "3000"),
        ("silences", "1"),
        ("silence_longest", "210"),
        ("told", "2"),
        ("told_differ", "0"),
        ("contact_moved", "1"),
        ("welded", "1"),
        ("welded_longest", "340"),
        ("not_closing", "1"),
        ("not_closing_longest", "240"),
        ("from_wall", ""),
        ("to_wall", ""),
        ("end", "open"),
        ("end_refused", "0"),
        ("bad_lines", "1"),
        ("before_begin", "3"),
        ("cut", ""),
    ] {
        assert_eq!(value(&rows, 1, name), expected, "{name}");
    }
}

/// A begin that finds the contactor closed opens it, for no cause.
#[test]
fn an_opening_by_a_begin() {
    let rows = csv(&answer(
        &["replay", "-", "--format", "csv"],
        &format!("{CHARGE}begin 50 32000 0 no\n"),
    ));
    let place = |name: &str| rows[0].iter().position(|field| field == name).expect(name);
    let last = rows.last().expect("a row");
    assert_eq!(
        (
            last[place("event")].as_str(),
            last[place("causes")].as_str()
        ),
        ("opened", "")
    );
}
