//! The documents' own examples: each block that starts with `$ ./chuldariin` is run at the top of the repository. Its lines must be
//! lines of the answer, in their order; `..` stands for others. A block that starts with a line's number goes on with that answer.

use std::fs;
use std::path::PathBuf;
use std::process::Command;

fn top() -> PathBuf {
    PathBuf::from(env!("CARGO_MANIFEST_DIR")).join("../..")
}

/// The indented blocks of a document, each without its indent.
fn blocks(document: &str) -> Vec<Vec<&str>> {
    let mut blocks = vec![Vec::new()];
    for line in document.lines() {
        match (line.strip_prefix("    "), blocks.last_mut()) {
            (Some(line), Some(block)) => block.push(line.trim_end()),
            // An empty line may stand inside a block.
            (None, Some(block)) if line.is_empty() && !block.is_empty() => block.push(""),
            _ => blocks.push(Vec::new()),
        }
    }
    blocks
}

/// What a command answers, or complains of. The demo writes to a folder of this test.
fn answer(command: &str, wrong: bool) -> String {
    let folder = PathBuf::from(env!("CARGO_TARGET_TMPDIR")).join("documents");
    let mut tool = Command::new(env!("CARGO_BIN_EXE_chuldariin-desk"));
    tool.args(command.split(' ')).current_dir(top());
    if command == "demo" {
        tool.arg(folder);
    }
    let output = tool.output().expect("the tool ends");
    let status = if wrong { 2 } else { 0 };
    assert_eq!(output.status.code(), Some(status), "{command}");
    String::from_utf8([output.stdout, output.stderr].concat()).expect("UTF-8")
}

/// Are these lines of the answer, in their order?
fn all_shown(block: &[&str], answered: &str) {
    let mut lines = answered.lines().map(str::trim_end);
    for wanted in block {
        assert!(
            ["", ".."].contains(wanted) || lines.any(|line| line == *wanted),
            "{wanted}\n{answered}"
        );
    }
}

/// Checks the blocks of a document; how many commands they show.
fn check(document: &str) -> usize {
    let (mut commands, mut answered) = (0, String::new());
    for block in blocks(document) {
        let Some(first) = block.first() else { continue };
        if let Some(command) = first.strip_prefix("$ ./chuldariin ") {
            commands += 1;
            let wrong = block
                .get(1)
                .is_some_and(|line| line.starts_with("chuldariin: "));
            answered = answer(command, wrong);
            all_shown(&block[1..], &answered);
        } else if first.trim_start().starts_with(|c: char| c.is_ascii_digit()) {
            all_shown(&block, &answered);
        }
    }
    commands
}

#[test]
fn what_the_documents_show_is_so() {
    for (name, least) in [("README.md", 1), ("docs/REPLAY.md", 4)] {
        let document = fs::read_to_string(top().join(name)).expect(name);
        let shown = check(&document);
        assert!(shown >= least, "{name} shows {shown} commands");
    }
}
