//! The command as a user has it: answers, exit statuses, and what it says of logs that are wrong.

use std::fs::{self, File};
use std::io::Read;
use std::os::unix::ffi::OsStrExt;
use std::path::PathBuf;
use std::process::{Output, Stdio};
use tool::{run, run_file, text, tool, CHARGE};

mod tool;

fn replay(log: &[u8]) -> Output {
    run(&["replay", "-"], log)
}

/// A file of this test alone.
fn file(name: &str, content: &[u8]) -> PathBuf {
    let folder = PathBuf::from(env!("CARGO_TARGET_TMPDIR")).join("command");
    fs::create_dir_all(&folder).expect("a folder");
    let path = folder.join(name);
    fs::write(&path, content).expect("a file");
    path
}

/// A log from standard input is refused whole: status 2, nothing on standard output, and this on standard error.
fn wrong_log(output: &Output, said: &str) {
    wrong(output, &format!("standard input: {said}"));
}

/// The same of a log in a file.
fn wrong_file(log: &[u8], said: &str) {
    let path = file("wrong.log", log);
    let path = path.to_str().expect("a name");
    wrong(&run(&["replay", path], b""), &format!("{path}: {said}"));
}

fn wrong(output: &Output, said: &str) {
    assert_eq!(output.status.code(), Some(2), "{}", text(&output.stderr));
    assert_eq!(text(&output.stdout), "");
    assert_eq!(text(&output.stderr), format!("chuldariin: {said}\n"));
}

#[test]
fn a_log_is_replayed_from_a_file_and_from_standard_input() {
    let path = file("charge.log", CHARGE.as_bytes());
    let by_name = run(&["replay", path.to_str().expect("a name")], b"");
    let by_input = replay(CHARGE.as_bytes());
    assert_eq!(by_name.status.code(), Some(0));
    assert_eq!(by_name.stdout, by_input.stdout);
    let shown = text(&by_input.stdout);
    let closing = shown.lines().nth(6).expect("a line for each call");
    assert!(closing.starts_with(
        "   6     40  sample 6,000 / -12,000    C proven    C2     53.3 % = 31.98 A  closed"
    ));
    assert!(closing.ends_with(">> CLOSED: proven in C at 30 and 40; not opened since begin"));
    assert!(!shown.contains('\u{1b}'), "colours are for terminals");
    assert_eq!(text(&by_input.stderr), "");
}

#[test]
fn other_line_ends_give_the_same_answer() {
    let marked = format!("\u{feff}{}", CHARGE.replace('\n', "\r\n"));
    assert_eq!(
        replay(marked.as_bytes()).stdout,
        replay(CHARGE.as_bytes()).stdout
    );
    let no_last_end = replay(CHARGE.trim_end().as_bytes());
    assert_eq!(no_last_end.stdout, replay(CHARGE.as_bytes()).stdout);
    assert_eq!(
        text(&no_last_end.stderr),
        "chuldariin: standard input: line 6, the last one, has no line end and may be torn; it is replayed as it stands (--skip-bad leaves it out)\n"
    );
}

#[test]
fn a_file_that_is_not_there() {
    let output = run(&["replay", "nowhere.log"], b"");
    wrong(
        &output,
        "nowhere.log: can't be read: No such file or directory (os error 2)",
    );
    let output = run(&["replay", "."], b"");
    wrong(&output, ".: can't be read: Is a directory (os error 21)");
}

#[test]
fn a_log_without_calls() {
    let said = "the log has no call; expected begin TIME RATED PAUSE yes|no, and the calls after it, one a line";
    for log in ["", "\n\n", "# nothing\r\n", "   \t\n"] {
        wrong_log(&replay(log.as_bytes()), said);
    }
}

#[test]
fn a_log_without_begin() {
    let said = "line 2: the first call is tick; expected begin TIME RATED PAUSE yes|no: a log is replayed from its begin, \
                since what went before is not known (--skip-bad starts at the first begin)";
    wrong_log(&replay(b"# the end of a log\ntick 10\ntick 20\n"), said);
    wrong_log(
        &replay(b"# the end of a log\ntick 10\nbegin 20 32000 0 no\n"),
        said,
    );
}

#[test]
fn wrong_lines() {
    let log = format!("{CHARGE}sample 50 6000\ntick 60\n");
    wrong_file(
        log.as_bytes(),
        "line 7: LOW is missing; expected sample TIME HIGH LOW",
    );
    let log = format!("{CHARGE}limit 50 4294967296\n");
    let said =
        "line 7: MA '4294967296' is too large: the most is 4294967295; expected limit TIME MA";
    wrong_file(log.as_bytes(), said);
    let output = run_file(&["replay", "-"], &b"step 1\n".repeat(12));
    let said = text(&output.stderr);
    assert_eq!(output.status.code(), Some(2));
    assert_eq!(said.lines().count(), 11);
    assert!(said.ends_with("\nand 2 more wrong lines\n"));
}

#[test]
fn bytes_that_are_no_text() {
    wrong_log(
        &replay(b"\xff\xfet\0i\0"),
        "the log is UTF-16; expected UTF-8: save it as that",
    );
    let said = "line 1: byte 6 (0xff) is not UTF-8; expected text in UTF-8";
    wrong_log(&replay(b"tick \xff\n"), said);
}

#[test]
fn commands_that_are_wrong() {
    for (words, said) in [
        (
            &["step"][..],
            "'step' is no command; expected replay, why, plot, summary or demo",
        ),
        (
            &["replay"],
            "FILE is missing; expected replay FILE.. [--only changes] [--format text|csv|json] [--from TIME] [--to TIME] [--follow] [--skip-bad]",
        ),
        (
            &["why", "a", "b", "--at", "5"],
            "'b' is not expected here; expected why FILE --at TIME, or --line LINE [--skip-bad]",
        ),
        (
            &["replay", "a", "--only"],
            "--only wants a value; expected replay FILE.. [--only changes] [--format text|csv|json] [--from TIME] [--to TIME] [--follow] [--skip-bad]",
        ),
        (
            &["replay", "a", "--only", "all"],
            "--only 'all'; expected --only changes",
        ),
        (
            &["why", "a"],
            "--at is missing; expected why FILE --at TIME, or --line LINE [--skip-bad]",
        ),
        (
            &["why", "a", "--at", "x"],
            "--at 'x' is no time; expected digits alone, like 32000, 2:32000 in the second list, or a date like 2026-11-16T03:40:00Z",
        ),
        (
            &["plot", "a"],
            "-o is missing; expected plot FILE -o OUT.svg [--from TIME] [--to TIME] [--skip-bad]",
        ),
        (
            &["demo", "a", "b"],
            "demo takes one FOLDER to write into, or none",
        ),
    ] {
        let output = run(words, b"");
        assert_eq!(output.status.code(), Some(2), "{words:?}");
        let first = text(&output.stderr);
        assert_eq!(
            first.lines().next(),
            Some(format!("chuldariin: {said}").as_str())
        );
    }
    for words in [
        &[][..],
        &["help"],
        &["-h"],
        &["--help"],
        &["replay", "--help"],
    ] {
        let output = run(words, b"");
        assert_eq!(output.status.code(), Some(0));
        assert!(text(&output.stdout).contains("chuldariin replay FILE"));
    }
}

#[test]
fn only_changes() {
    let log = format!("{CHARGE}# on\nsample 50 6000 -12000\ntick 49\ntick 48\ntick 60\nsample 70 6000 -12000\nlimit 80 0\nlimit 90 0\n");
    let output = run(&["replay", "-", "--only", "changes"], log.as_bytes());
    let shown = text(&output.stdout);
    let table = shown.split("\n\nsummary").next().expect("a table");
    let lines: Vec<&str> = table.lines().skip(1).map(|line| line[..4].trim()).collect();
    // Begin, B2, closing, the comment, the first refused, accepted again, the stop.
    assert_eq!(lines, ["1", "4", "6", "# on", "9", "11", "13"]);
    assert!(table.contains("accepted again, after 2 refused"));
}

#[test]
fn why_an_open_contactor_is_open() {
    let log = format!(
        "{CHARGE}sample 50 6000 -10900\ntick 121\nsample 130 6000 -10900\nsample 140 6000 -12000\n"
    );
    let why = |at: &str| text(&run(&["why", "-", "--at", at], log.as_bytes()).stdout);
    let answer = why("140");
    for line in [
        "  wave driven              yes  53.3 % = 31.98 A",
        "  this sample proven       yes  high 6,000 mV is C, low -12,000 mV",
        "  previous sample proven   no   at 130: low -10,900 mV is outside -13,000 to -11,000",
        "  both in one band         yes  C, then C",
        "  pause                    no   2,981 ms left of 3,000, since the opening at 121",
        "The contactor waits for one more proven sample in C and the end of the pause at 3121.",
    ] {
        assert!(
            answer.lines().any(|shown| shown == line),
            "{line}\n{answer}"
        );
    }
    assert!(why("45").contains("The contactor is closed since line 6, at 40."));
    assert!(why("121").contains("OPENED: 81 ms since the last sound sample (ii)"));
    assert!(why("131").contains("it was forgotten by the opening at 121"));
    let early = run(&["why", "-", "--at", "5"], b"begin 10 32000 0 no\n");
    wrong(
        &early,
        "--at 5: no list has begun by 5; expected 10 or later: line 1",
    );
}

#[test]
fn a_refused_call_is_no_answer_to_why() {
    let log = "begin 0 32000 0 no\ntick 20\nlimit 25 80001\nlimit 26 80001\ntick 50\ntick 30\n";
    let answer = text(&run(&["why", "-", "--at", "29"], log.as_bytes()).stdout);
    assert!(
        answer.starts_with(
            "at 29: the last accepted call is line 2, tick at 20, 9 ms before\nafter it 2 refused"
        ),
        "{answer}"
    );
    // By the log's order the call at 30 came after that at 50.
    let answer = text(&run(&["why", "-", "--at", "40"], log.as_bytes()).stdout);
    assert!(
        answer
            .starts_with("at 40: the last accepted call is line 5, tick at 50\nafter it 1 refused"),
        "{answer}"
    );
    assert!(
        answer.contains("line 6, at 30, was refused for its own time")
            && answer.contains("passed that time once more, after line 4, at 26"),
        "{answer}"
    );
    let answer = text(&run(&["why", "-", "--at", "60"], log.as_bytes()).stdout);
    assert!(
        answer.starts_with(
            "at 60: the last accepted call is line 5, tick at 50, 10 ms before\nafter it 1 refused"
        ),
        "{answer}"
    );
}

#[test]
fn whoever_has_read_enough_may_go() {
    let log = file(
        "long.log",
        format!("{CHARGE}{}", "tick 50\n".repeat(100_000)).as_bytes(),
    );
    let mut tool = tool();
    tool.args(["replay", log.to_str().expect("a name")]);
    let mut child = tool
        .stdout(Stdio::piped())
        .stderr(Stdio::piped())
        .spawn()
        .expect("the tool starts");
    let mut first = [0; 10];
    let mut stdout = child.stdout.take().expect("a pipe");
    stdout.read_exact(&mut first).expect("some output");
    drop(stdout);
    let output = child.wait_with_output().expect("the tool ends");
    assert_eq!(
        (output.status.code(), text(&output.stderr)),
        (Some(0), String::new())
    );
}

#[test]
fn a_full_disk_is_told() {
    let full = File::options()
        .write(true)
        .open("/dev/full")
        .expect("/dev/full");
    let log = file("full.log", CHARGE.as_bytes());
    let mut tool = tool();
    tool.args(["replay", log.to_str().expect("a name")])
        .stdout(full);
    let output = tool.stderr(Stdio::piped()).output().expect("the tool ends");
    assert_eq!(output.status.code(), Some(1));
    assert!(
        text(&output.stderr).starts_with("chuldariin: No space left"),
        "{}",
        text(&output.stderr)
    );
}

#[test]
fn the_demo_writes_what_it_replays() {
    let folder = file("day", b"").with_file_name("a demo");
    // It makes the folder.
    let _ = fs::remove_dir_all(&folder);
    let name = folder.to_str().expect("a name");
    let output = run(&["demo", name], b"");
    assert_eq!(output.status.code(), Some(0), "{}", text(&output.stderr));
    let (shown, log) = (text(&output.stdout), folder.join("day.log"));
    let log = log.to_str().expect("a name");
    let again = run(&["replay", log, "--only", "changes"], b"");
    assert!(shown.contains(&text(&again.stdout)));
    assert!(
        shown.contains(&format!("  chuldariin why '{log}' --at 9000 ")),
        "{shown}"
    );
    let svg = fs::read_to_string(folder.join("day.svg")).expect("a picture");
    assert!(svg.ends_with("</svg>\n"));
    let drawn = run(&["plot", log, "-o", "-"], b"");
    assert_eq!(text(&drawn.stdout).lines().count(), svg.lines().count());
}

#[test]
fn a_begin_starts_afresh() {
    let log = format!("{CHARGE}begin 50 16000 0 yes\nlimit 60 16000\nsample 70 9000 9000\nsample 80 9000 9000\nsample 90 3000 -12000\nsample 100 3000 -12000\n");
    let shown = text(&replay(log.as_bytes()).stdout);
    assert!(
        shown.contains(
            "<< OPENED: by the new begin; list 2 begins: pause 10,000 ms (given as 0), with ventilation\n"
        ),
        "{shown}"
    );
    assert!(
        shown.contains(">> CLOSED: proven in D at 90 and 100; not opened since begin\n"),
        "{shown}"
    );
    for line in [
        "  calls     12: 12 accepted, 0 refused, in 2 lists (begins)",
        "  closings  2",
        "  openings  1",
        "          1  by a new begin",
        "  spacing   no two closings in one list",
        "            across a begin 60 ms: a begin starts afresh, and no pause holds there",
    ] {
        assert!(shown.lines().any(|shown| shown == line), "{line}\n{shown}");
    }
    let why = text(&run(&["why", "-", "--at", "50"], log.as_bytes()).stdout);
    for line in [
        "OPENED: by the new begin; line 7, at 2:50",
        "  contactor open before    no",
        "  opened before, if at all no   this call opened it",
        "  previous sample proven   no   there is none since begin",
        "The contactor waits for a limit of 6,000 mA or more (it is 0), a settled state (it is U) and two proven samples in a row in one band.",
    ] {
        assert!(why.lines().any(|shown| shown == line), "{line}\n{why}");
    }
    // A line of the first list is asked for by its number.
    let first = text(&run(&["why", "-", "--line", "5"], log.as_bytes()).stdout);
    assert!(
        first.starts_with(
            "at line 5: the last accepted call is line 5, sample 6,000 / -12,000 at 1:30\n"
        ),
        "{first}"
    );
}

#[test]
fn a_log_that_ends_in_refused_calls_says_so() {
    let log = format!("{CHARGE}tick 39\ntick 38\nlimit 50 80001\nmeasure 50 200001\n");
    let output = run(&["replay", "-", "--only", "changes"], log.as_bytes());
    let shown = text(&output.stdout);
    let end = "  end       refused, 4 calls in a row: nothing is judged since 40, and the contactor stays closed";
    assert_eq!(shown.lines().last(), Some(end));
    // One line for the ticks, one for the limit and one for the measure.
    assert_eq!(shown.matches("REFUSED").count(), 3, "{shown}");
}

#[test]
fn the_summary_counts() {
    let mut log = format!("{CHARGE}sample 50 9000 -12000\nsample 60 9000 -12000\n");
    for time in (70..=3_060).step_by(10) {
        log.push_str(&format!("sample {time} 6000 -12000\n"));
    }
    // No sound sample, and a fault, in one call.
    log.push_str("fault 3141 5\ntick 3140\n");
    let shown = text(&replay(log.as_bytes()).stdout);
    for line in [
        "  calls     310: 309 accepted, 1 refused",
        "  closings  2",
        "  openings  2",
        "          1  (i)   two unsound samples in a row",
        "          1  (ii)  no sound sample for more than 80 ms",
        "          1  (v)   a fault",
        "          1  of them had more than one cause, and count under each",
        "  refusals  1",
        "          1  2     the time is before the last accepted call",
        "  spacing   shortest time between two closings 3,020 ms (at 40 and 3060); the pause is 3,000 ms: kept",
    ] {
        assert!(shown.lines().any(|shown| shown == line), "{line}\n{shown}");
    }
    assert!(shown.contains(
        "<< OPENED: 81 ms since the last sound sample (ii); fault: over-temperature (v)\n"
    ));
}

#[test]
fn over_runs_and_stops_are_told_from_start_to_end() {
    let log = format!(
        "{CHARGE}measure 50 35179\nmeasure 60 35178\nmeasure 70 40000\nlimit 80 5999\nlimit 90 16000\nlimit 100 0\n\
         sample 110 9000 9000\nsample 120 9000 9000\n"
    );
    let shown = text(&replay(log.as_bytes()).stdout);
    for (line, words) in [
        (7, "over-run starts: 35,179 mA is above 35,178 (1.1 x 31,980); fault 2 at 5050 unless it ends or the duty is lowered"),
        (8, "over-run ends, 10 ms old"),
        (9, "over-run starts: 40,000 mA is above 35,178 (1.1 x 31,980); fault 2 at 5070 unless it ends or the duty is lowered"),
        (10, "over-run ends, 10 ms old; stop starts: limit 5,999 mA is below 6,000; opens at 3080 unless a wave is driven by then"),
        (11, "stop ends, 10 ms old"),
        (14, "are not below 7,500 (i); stop ends, 20 ms old"),
    ] {
        let row = shown.lines().nth(line).expect("a line for each call");
        assert!(row.ends_with(words), "{row}");
    }
}

#[test]
fn a_part_that_ends_before_it_starts() {
    let output = run(&["plot", "-", "-o", "-", "--from", "5", "--to", "1"], b"");
    assert_eq!(output.status.code(), Some(2));
    let said = "chuldariin: --from 5 is after --to 1; expected an earlier --from\n";
    assert!(text(&output.stderr).starts_with(said));
}

#[test]
fn a_name_that_is_not_utf_8() {
    let name = std::ffi::OsStr::from_bytes(b"\xfe.svg");
    let output = tool().args(["plot", "-", "-o"]).arg(name).output();
    let output = output.expect("the tool ends");
    assert_eq!(output.status.code(), Some(2));
    assert!(text(&output.stderr).starts_with("chuldariin: \"\\xFE.svg\" is not UTF-8"));
}

#[test]
fn nobody_listens() {
    let mut tool = tool();
    tool.args(["replay", "nowhere.log"]).stderr(Stdio::piped());
    let mut child = tool.spawn().expect("the tool starts");
    drop(child.stderr.take());
    assert_eq!(child.wait().expect("the tool ends").code(), Some(2));
}

#[test]
fn more_logs_that_are_wrong() {
    for (log, said) in [
        (&b"\xfe\xff\0t"[..], "standard input: the log is UTF-16;"),
        (
            b"clear 5\n",
            "standard input: line 1: the first call is clear;",
        ),
        (
            b"begin 0 32000 0 no\nclear 1 2\n",
            "standard input: line 2: '2' is one value too many;",
        ),
        (
            b"begin 0 32000 0 y\n",
            "standard input: line 1: 'y' is neither yes nor no;",
        ),
        (
            b"begin 0 32000 0 no\nmeasured 1 2\n",
            "standard input: line 2: 'measured' is no call;",
        ),
    ] {
        let output = replay(log);
        assert_eq!(output.status.code(), Some(2));
        assert!(
            text(&output.stderr).starts_with(&format!("chuldariin: {said}")),
            "{said}"
        );
    }
}

#[test]
fn a_picture_is_never_written_over_its_log() {
    let log = file("kept.svg", CHARGE.as_bytes());
    let name = log.to_str().expect("a name");
    let said = format!("-o {name} is the log itself; expected another name");
    wrong(&run(&["plot", name, "-o", name], b""), &said);
    assert_eq!(fs::read(&log).expect("the log"), CHARGE.as_bytes());
    let nothing = run(&["plot", name, "-o", "-", "--from", "41"], b"");
    wrong(
        &nothing,
        "--from 41: the log ends at 40; expected an earlier --from",
    );
    let nothing = run(&["plot", "-", "-o", "-"], b"begin 0 1 0 no\n");
    wrong(
        &nothing,
        "there is nothing to draw: no call of the log is accepted: nothing has begun; line 1 is refused by 1: rated 1 mA is not 6,000 to 80,000",
    );
}

#[test]
fn the_end_of_a_log_that_is_refused() {
    let shown = text(&replay(b"begin 0 1 0 no\ntick 5\n").stdout);
    assert_eq!(
        shown.lines().last(),
        Some("  end       no begin was accepted")
    );
    let shown = text(&replay(b"begin 0 32000 0 no\ntick 5\ntick 4\n").stdout);
    let end = "  end       refused, 1 call in a row: nothing is judged since 5, and the contactor stays open";
    assert_eq!(shown.lines().last(), Some(end));
}

#[test]
fn closings_across_begins() {
    // 40, then 140 and 190 on one clock: 100 and 50 ms apart.
    let list = |from: u64| {
        let mut list = format!("begin {from} 32000 1000 no\nlimit {from} 32000\n");
        for (after, levels) in [
            (10, "9000 9000"),
            (20, "9000 9000"),
            (30, "6000 -12000"),
            (40, "6000 -12000"),
        ] {
            list.push_str(&format!("sample {} {levels}\n", from + after));
        }
        list
    };
    let across = |lists: &[u64]| {
        let log: String = lists.iter().map(|from| list(*from)).collect();
        let shown = text(&replay(log.as_bytes()).stdout);
        let line = shown.lines().find(|line| line.contains("across a begin"));
        line.map(|line| line.trim().split(':').next().unwrap_or("").to_string())
    };
    assert_eq!(
        across(&[0, 100, 150]).as_deref(),
        Some("across a begin 50 ms")
    );
    // A clock that starts anew tells nothing of the time between, also if it soon is where it was.
    assert_eq!(across(&[100, 130]), None);
    assert_eq!(across(&[1_000, 0]), None);
}

#[test]
fn words_of_the_command_line() {
    let log = file("-x.log", CHARGE.as_bytes());
    let mut tool = tool();
    tool.args(["replay", "--only=changes", "--", "-x.log"]);
    let output = tool.current_dir(log.parent().expect("a folder")).output();
    let output = output.expect("the tool ends");
    assert_eq!(output.status.code(), Some(0), "{}", text(&output.stderr));
    assert_eq!(
        text(&output.stdout),
        text(&run(&["replay", "-", "--only", "changes"], CHARGE.as_bytes()).stdout)
    );
    let version = text(&run(&["--version"], b"").stdout);
    assert_eq!(
        version,
        format!("chuldariin {}\n", env!("CARGO_PKG_VERSION"))
    );
    for words in [
        &["replay", "a", "--skip-bad=yes"][..],
        &["replay", "a", "--only=changes", "--only=changes"],
        &["replay", "a", "--only="],
        &["replay", "--", "--help"],
        &["demo", ""],
        &["summary"],
        &["plot", "a", "-o", "a.svg", "--from", "2:5", "--to", "1:9"],
        &[
            "plot",
            "a",
            "-o",
            "a.svg",
            "--from",
            "2026-11-16T03:40:01Z",
            "--to",
            "2026-11-16T03:40:00Z",
        ],
    ] {
        assert_eq!(run(words, b"").status.code(), Some(2), "{words:?}");
    }
    // From and to may be one moment.
    let output = run_file(
        &["replay", "-", "--from", "40", "--to", "40"],
        CHARGE.as_bytes(),
    );
    assert_eq!(output.status.code(), Some(0));
}

/// Two logs that were joined, each with the mark of its editor.
#[test]
fn a_mark_in_the_middle() {
    let marked = format!("\u{feff}{CHARGE}\u{feff}{CHARGE}");
    let shown = text(&replay(marked.as_bytes()).stdout);
    assert!(
        shown.contains("12 accepted, 0 refused, in 2 lists"),
        "{shown}"
    );
}
