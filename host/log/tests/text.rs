//! Logs as text and back, and what is said of a line that is no call.

use chuldariin_log::text::{calls, parse, print};
use chuldariin_log::{Call, Entry, Line, Record, Window};

const TEXT: &str = "\
begin 0 32000 0 no
begin 18446744073709551615 4294967295 60001 yes
begin 0 32000 0 no digital
sample 10 9000 -12000
sample 10 -2147483648 2147483647
window 20
window 20 -15001
window 20 1 2 3
limit 30 32000
measure 40 200001
measure 40 0 200001 4294967295
link 45 80001
fault 50 3
clear 1000000000000
tick 1000000000001
";

/// Lines that are no calls, and what is said of each.
const WRONG: [(&str, &str); 39] = [
    ("tick -0", "TIME '-0' is too small: the least is 0; expected tick TIME"),
    ("tick --1", "TIME '--1' is no number; expected a whole number in digits alone, like 32000 or -12000"),
    ("tick 1\u{0}", "TIME '1\\0' is no number; expected a whole number in digits alone, like 32000 or -12000"),
    ("tick", "TIME is missing; expected tick TIME"),
    ("tick # 1", "TIME is missing; expected tick TIME"),
    ("limit 1", "MA is missing; expected limit TIME MA"),
    ("measure 1", "MA is missing; expected measure TIME MA or measure TIME L1 L2 L3"),
    ("measure 1 2 3", "L3 is missing; expected measure TIME MA or measure TIME L1 L2 L3"),
    ("measure 1 2 3 x", "L3 'x' is no number; expected a whole number in digits alone, like 32000 or -12000"),
    ("measure 1 2 3 4 5", "'5' is one value too many; expected measure TIME MA or measure TIME L1 L2 L3"),
    ("link 1", "MA is missing; expected link TIME MA"),
    ("fault 1", "KIND is missing; expected fault TIME KIND"),
    ("sample 10 9000", "LOW is missing; expected sample TIME HIGH LOW"),
    ("begin 0", "RATED is missing; expected begin TIME RATED PAUSE yes|no [digital|plain]"),
    ("begin 0 32000 0", "yes|no (has the post ventilation?) is missing; expected begin TIME RATED PAUSE yes|no [digital|plain]"),
    ("begin 0 32000 0 maybe", "'maybe' is neither yes nor no; expected begin TIME RATED PAUSE yes|no [digital|plain]"),
    ("begin 0 32000 0 no 5", "'5' is neither digital nor plain; expected begin TIME RATED PAUSE yes|no [digital|plain]"),
    ("begin 0 32000 0 no digital 5", "'5' is one value too many; expected begin TIME RATED PAUSE yes|no [digital|plain]"),
    ("tick 1 2", "'2' is one value too many; expected tick TIME"),
    ("tick 1\rtick 2",
        "a CR that no LF follows; expected lines that end in LF or CR LF",
    ),
    ("Tick 1", "'Tick' is no call; expected begin, sample, window, limit, measure, link, fault, clear or tick, or a record: told, contact, panel, clock or travel"),
    ("step 1", "'step' is no call; expected begin, sample, window, limit, measure, link, fault, clear or tick, or a record: told, contact, panel, clock or travel"),
    ("10 tick", "'10' is no call; expected begin, sample, window, limit, measure, link, fault, clear or tick, or a record: told, contact, panel, clock or travel"),
    ("tick -1", "TIME '-1' is too small: the least is 0; expected tick TIME"),
    ("tick +1", "TIME '+1' is no number; expected a whole number in digits alone, like 32000 or -12000"),
    ("tick 1_000", "TIME '1_000' is no number; expected a whole number in digits alone, like 32000 or -12000"),
    ("tick 1,000", "TIME '1,000' is no number; expected a whole number in digits alone, like 32000 or -12000"),
    ("tick 0x10", "TIME '0x10' is no number; expected a whole number in digits alone, like 32000 or -12000"),
    ("limit 0 32.5", "MA '32.5' is no number; expected a whole number in digits alone, like 32000 or -12000"),
    ("limit 0 -", "MA '-' is no number; expected a whole number in digits alone, like 32000 or -12000"),
    ("tick 18446744073709551616", "TIME '18446744073709551616' is too large: the most is 18446744073709551615; expected tick TIME"),
    ("limit 1 4294967296", "MA '4294967296' is too large: the most is 4294967295; expected limit TIME MA"),
    ("sample 10 2147483648 0", "HIGH '2147483648' is too large: the most is 2147483647; expected sample TIME HIGH LOW"),
    ("sample 10 0 -2147483649", "LOW '-2147483649' is too small: the least is -2147483648; expected sample TIME HIGH LOW"),
    ("window", "TIME is missing; expected window TIME r1 r2 .."),
    ("window 10 1 x", "reading 2 'x' is no number; expected a whole number in digits alone, like 32000 or -12000"),
    ("tick \u{1b}[2J", "TIME '\\u{1b}[2J' is no number; expected a whole number in digits alone, like 32000 or -12000"),
    ("tick 99999999999999999999999999999999", "TIME '999999999999999999999999..' is too large: the most is 18446744073709551615; expected tick TIME"),
    ("tick \u{661}", "TIME '\u{661}' is no number; expected a whole number in digits alone, like 32000 or -12000"),
];

#[test]
fn text_comes_back_as_it_was() {
    let list = calls(TEXT).expect("a list of calls");
    assert_eq!(list.len(), 15);
    assert_eq!(print(&list), TEXT);
    assert_eq!(list[3], Call::Sample(10, Window::Halves(9_000, -12_000)));
    assert_eq!(list[5], Call::Sample(20, Window::Readings(Vec::new())));
    assert_eq!(list[9], Call::Measure(40, 200_001));
    assert_eq!(list[10], Call::MeasureLines(40, [0, 200_001, u32::MAX]));
    assert_eq!(list[11], Call::Link(45, 80_001));
}

/// What a post records comes back as it was, too; a date in the one form that it is written in.
#[test]
fn records_come_back_as_they_were() {
    let text = "\
tick 1
told C2 533 closed 0 1
tick 2
told U - open - 4294967295 0 - 200000
tick 3
told - - - 255 -
contact 18446744073709551615 open
contact 0 closed
panel 5 32 A  \"charging\"
clock 6 2026-11-16T03:40:00.000Z
clock 6 2026-11-16T04:40:00.250+01:00
travel 100
";
    let entries = parse(text.as_bytes()).expect("records");
    let line = |entry: &Entry| match &entry.what {
        Line::Call(call) => call.to_string(),
        Line::Record(record) => record.to_string(),
        Line::Comment(comment) => comment.clone(),
    };
    let lines: Vec<String> = entries.iter().map(line).collect();
    assert_eq!(lines.join("\n") + "\n", text);
}

/// A panel's words are the rest of the line, up to a comment.
#[test]
fn the_words_of_a_panel() {
    for (said, words) in [
        ("panel 5 on", "on"),
        ("  panel\t5   on   and  off \t# lit", "on   and  off"),
        ("panel 5 panel 5", "panel 5"),
        ("panel 5 \u{e9}t\u{e9}", "\u{e9}t\u{e9}"),
    ] {
        let entries = parse(said.as_bytes()).expect(said);
        assert_eq!(
            entries[0].what,
            Line::Record(Record::Panel(5, words.to_string()))
        );
    }
}

#[test]
fn equal_readings_are_equal_windows() {
    let mut readings = vec![9_000; 256];
    readings[128..].fill(-12_000);
    let words: Vec<String> = readings.iter().map(i32::to_string).collect();
    let list = calls(&format!("window 10 {}", words.join(" "))).expect("a window");
    assert_eq!(list, calls("sample 10 9000 -12000").expect("a sample"));
    assert_eq!(Window::Halves(9_000, -12_000).to_vec(), readings);
    readings[127] = 8_999;
    assert_eq!(Window::from(readings.clone()), Window::Readings(readings));
}

#[test]
fn every_line_that_is_no_call_is_told() {
    for (line, said) in WRONG {
        let text = format!("tick 0\n{line}\ntick 2\n");
        let wrong = calls(&text).expect_err(line);
        assert_eq!((wrong.first.len(), wrong.more), (1, 0), "{line}");
        assert_eq!(wrong.first[0].to_string(), format!("line 2: {said}"));
    }
}

#[test]
fn all_wrong_lines_are_told_in_their_order() {
    let wrong = calls("step 1\ntick 1\n\n# tick\ntick\n").expect_err("two lines are wrong");
    let lines: Vec<usize> = wrong.first.iter().map(|wrong| wrong.line).collect();
    assert_eq!(lines, [1, 5]);
}

#[test]
fn bytes_that_are_no_text() {
    let wrong = parse(b"tick 1\ntick \xff\n").expect_err("0xff is in no UTF-8");
    assert_eq!(
        wrong.first[0].to_string(),
        "line 2: byte 6 (0xff) is not UTF-8; expected text in UTF-8"
    );
}

#[test]
fn spaces_comments_line_ends_and_marks() {
    let said = "\u{feff}# first\r\n\r\n  tick\t 1  # late\r\n#\r\ntick 0002\r\nlimit 3 0#";
    let entry = |line, what| Entry { line, what };
    assert_eq!(
        parse(said.as_bytes()),
        Ok(vec![
            entry(1, Line::Comment("first".to_string())),
            entry(3, Line::Call(Call::Tick(1))),
            entry(4, Line::Comment(String::new())),
            entry(5, Line::Call(Call::Tick(2))),
            entry(6, Line::Call(Call::Limit(3, 0))),
        ])
    );
    assert_eq!(parse(b""), Ok(Vec::new()));
}
