//! Runs the command.

// Each test uses a part of it.
#![allow(dead_code)]

use std::fs;
use std::io::Write;
use std::path::PathBuf;
use std::process::{Command, Output, Stdio};
use std::sync::atomic::{AtomicU32, Ordering};

/// B2 at 20.
pub const PLUGGED: &str =
    "begin 0 32000 3000 no\nlimit 0 32000\nsample 10 9000 9000\nsample 20 9000 9000\n";
/// And closed at 40.
pub const CHARGE: &str = "begin 0 32000 3000 no\nlimit 0 32000\nsample 10 9000 9000\nsample 20 9000 9000\nsample 30 6000 -12000\nsample 40 6000 -12000\n";

pub fn tool() -> Command {
    Command::new(env!("CARGO_BIN_EXE_chuldariin-desk"))
}

/// Runs the command with this standard input.
pub fn run(words: &[&str], input: &[u8]) -> Output {
    let mut tool = tool();
    tool.args(words);
    tool.stdin(Stdio::piped())
        .stdout(Stdio::piped())
        .stderr(Stdio::piped());
    let mut child = tool.spawn().expect("the tool starts");
    let mut stdin = child.stdin.take().expect("a pipe");
    // A command that does not read its input may be gone by now.
    let _ = stdin.write_all(input);
    drop(stdin);
    child.wait_with_output().expect("the tool ends")
}

pub fn text(bytes: &[u8]) -> String {
    String::from_utf8(bytes.to_vec()).expect("UTF-8")
}

/// A file with this content, of this call alone.
pub fn file(name: &str, content: &[u8]) -> PathBuf {
    static NEXT: AtomicU32 = AtomicU32::new(0);
    let number = NEXT.fetch_add(1, Ordering::Relaxed);
    let own = format!("{}-{number}", std::process::id());
    let folder = PathBuf::from(env!("CARGO_TARGET_TMPDIR")).join(own);
    fs::create_dir_all(&folder).expect("a folder");
    let path = folder.join(name);
    fs::write(&path, content).expect("a file");
    path
}

/// A path as a word of the command.
pub fn name(path: &std::path::Path) -> &str {
    path.to_str().expect("a name in UTF-8")
}

/// Runs the command with a log in a file, whose name takes the place of the first `-`. Then the log is there as a whole.
pub fn run_file(words: &[&str], log: &[u8]) -> Output {
    let path = file("log", log);
    let mut words = words.to_vec();
    let place = words.iter().position(|word| *word == "-").expect("a log");
    words[place] = name(&path);
    let output = run(&words, b"");
    let _ = fs::remove_dir_all(path.parent().expect("a folder"));
    output
}

/// What it answers to this log; all must be well.
pub fn answer(words: &[&str], log: &str) -> String {
    let output = run_file(words, log.as_bytes());
    assert_eq!(output.status.code(), Some(0), "{}", text(&output.stderr));
    text(&output.stdout)
}

/// The line that starts with these words.
pub fn line<'a>(answer: &'a str, start: &str) -> &'a str {
    let mut lines = answer.lines();
    let found = lines.find(|line| line.trim_start().starts_with(start));
    found.unwrap_or_else(|| panic!("{start}\n{answer}"))
}

/// What `why` answers at a time of this log.
pub fn why(log: &str, at: &str) -> String {
    answer(&["why", "-", "--at", at], log)
}

/// A condition's yes or no in it, and what is behind it.
pub fn says(answer: &str, condition: &str, words: &str) {
    let line = line(answer, condition);
    assert_eq!(line.split_at(27).1.trim(), words, "{answer}");
}

/// The last line of what `why` answers.
pub fn waits(answer: &str, words: &str) {
    let last = format!("The contactor waits for {words}.");
    assert_eq!(answer.lines().last(), Some(last.as_str()));
}

/// A row without its word of a silence: these logs leave out the samples between.
pub fn without_silence(row: &str) -> &str {
    row.split("; !! no accepted call for").next().unwrap_or(row)
}
