//! Logs that are read as they come: standard input, a pipe, a file that grows.

use std::fs::{self, File};
use std::io::{BufRead, BufReader, Read, Write};
use std::path::Path;
use std::process::{Child, ChildStdout, Command, Stdio};
use std::sync::mpsc::{channel, Receiver};
use std::time::Duration;
use tool::{answer, file, name, run, text, tool, CHARGE};

mod tool;

/// What a command prints, line by line as it comes.
struct Printed {
    child: Child,
    lines: Receiver<String>,
}

impl Printed {
    fn by(mut command: Command) -> Printed {
        let mut child = command
            .stdout(Stdio::piped())
            .spawn()
            .expect("the tool starts");
        let out = child.stdout.take().expect("a pipe");
        Printed {
            child,
            lines: each_line(out),
        }
    }

    /// The next line that has these words; it comes without anything more being asked.
    fn line_with(&self, words: &str) -> String {
        loop {
            let line = self.lines.recv_timeout(Duration::from_secs(20));
            let line = line.unwrap_or_else(|_| panic!("no line with {words}"));
            if line.contains(words) {
                return line;
            }
        }
    }
}

impl Drop for Printed {
    fn drop(&mut self) {
        let _ = self.child.kill();
        let _ = self.child.wait();
    }
}

fn each_line(out: ChildStdout) -> Receiver<String> {
    let (send, receive) = channel();
    std::thread::spawn(move || {
        let lines = BufReader::new(out).lines();
        lines
            .map_while(Result::ok)
            .try_for_each(|line| send.send(line))
    });
    receive
}

fn append(path: &Path, text: &str) {
    let mut file = File::options().append(true).open(path).expect("the log");
    file.write_all(text.as_bytes()).expect("it grows");
}

#[test]
fn standard_input_is_shown_as_it_comes() {
    let mut command = tool();
    command.args(["replay", "-"]).stdin(Stdio::piped());
    let mut printed = Printed::by(command);
    let mut input = printed.child.stdin.take().expect("a pipe");
    input.write_all(CHARGE.as_bytes()).expect("calls");
    printed.line_with(">> CLOSED: proven in C at 30 and 40");
    input.write_all(b"tick 121\n").expect("a call");
    printed.line_with("<< OPENED: 81 ms since the last sound sample (ii)");
    // Half a line waits for its end.
    input.write_all(b"measure 130 1 2").expect("a part");
    input.write_all(b"0 3\n").expect("the rest");
    printed.line_with("lines 1, 2, 3 (mA)");
    printed.line_with("1 20 3");
    drop(input);
    printed.line_with("end       contactor open");
}

#[test]
fn a_file_that_grows_is_followed() {
    let path = file("growing.log", CHARGE.as_bytes());
    let mut command = tool();
    command.args(["replay", "--follow", name(&path)]);
    let mut printed = Printed::by(command);
    printed.line_with(">> CLOSED");
    append(&path, "tick 12");
    append(&path, "1\n");
    assert!(printed
        .line_with("<< OPENED")
        .starts_with("   7    121  tick"));
    append(&path, "begin 200 16000 0 no digital\n");
    printed.line_with("grant (mA)");
    printed.line_with("list 2 begins");
    // A log that is replaced is followed no further.
    fs::rename(&path, path.with_extension("old")).expect("another name");
    printed.line_with("end       contactor open");
    assert!(printed.child.wait().expect("the tool ends").success());
}

#[test]
fn a_log_that_is_cut_is_followed_no_further() {
    let path = file("cut.log", CHARGE.as_bytes());
    let mut command = tool();
    command
        .args(["replay", "--follow", "--format", "json", name(&path)])
        .stderr(Stdio::piped());
    let mut printed = Printed::by(command);
    printed.line_with("\"event\":\"closed\"");
    File::options()
        .write(true)
        .truncate(true)
        .open(&path)
        .expect("a cut");
    let mut said = String::new();
    let stderr = printed.child.stderr.as_mut().expect("a pipe");
    stderr.read_to_string(&mut said).expect("words");
    assert!(
        said.contains("it was replaced or cut, and is followed no further"),
        "{said}"
    );
}

#[test]
fn what_can_not_be_followed() {
    for words in [
        &["replay", "--follow", "a", "b"][..],
        &["replay", "--follow", "a", "--from", "5"],
        &["replay", "--follow", "a.gz"],
        &["replay", "--follow=yes", "a"],
        &["replay", "--follow", "-"],
    ] {
        assert_eq!(run(words, b"").status.code(), Some(2), "{words:?}");
    }
    let output = run(&["replay", "--follow", "nowhere.log"], b"");
    assert_eq!(output.status.code(), Some(2));
    assert!(text(&output.stderr).contains("nowhere.log: can't be read: No such file"));
}

/// A pipe can be read once, and answers all the same.
#[test]
fn a_pipe_in_the_place_of_a_file() {
    for words in [
        "replay /dev/stdin",
        "why /dev/stdin --at 45",
        "plot /dev/stdin -o -",
        "summary /dev/stdin --format json",
    ] {
        let words: Vec<&str> = words.split(' ').collect();
        let output = run(&words, CHARGE.as_bytes());
        assert_eq!(
            output.status.code(),
            Some(0),
            "{words:?} {}",
            text(&output.stderr)
        );
    }
}

/// A stream brings its columns when they are needed, and else the same answer as a file.
#[test]
fn a_stream_tells_what_a_file_does() {
    let log = format!("{CHARGE}tick 121\n# on\nlimit 130 80001\n");
    let stream = text(&run(&["replay", "-"], log.as_bytes()).stdout);
    assert_eq!(stream, answer(&["replay", "-"], &log));
}

/// Another file under the same name is another log.
#[test]
fn a_log_that_is_replaced_is_followed_no_further() {
    let path = file("replaced.log", CHARGE.as_bytes());
    let mut command = tool();
    command
        .args(["replay", "--follow", name(&path)])
        .stderr(Stdio::null());
    let mut printed = Printed::by(command);
    printed.line_with(">> CLOSED");
    let new = path.with_extension("new");
    fs::write(&new, format!("{CHARGE}tick 121\ntick 500\n")).expect("a file");
    fs::rename(&new, &path).expect("its name");
    printed.line_with("end       contactor closed");
    assert!(printed.child.wait().expect("the tool ends").success());
}

/// A part of what comes through a pipe is known when all of it is there.
#[test]
fn a_part_of_a_stream() {
    let log = format!("{CHARGE}begin 0 32000 0 no\ntick 50\n");
    let output = run(
        &["replay", "-", "--from", "2:0", "--to", "2:50"],
        log.as_bytes(),
    );
    let shown = text(&output.stdout);
    assert!(
        shown.contains("\n   7    2:0  begin") && !shown.contains("\n   6 "),
        "{shown}"
    );
}
