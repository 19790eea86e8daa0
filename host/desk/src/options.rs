//! The command line.

use crate::data::Format;
use crate::input::Bad;
use crate::lists::Ask;
use crate::replay::{Only, Part};
use crate::why::At;

/// How to call it; the script beside the repository's README shows it too.
pub const USAGE: &str = include_str!("usage.txt");

/// What is to be done.
#[derive(Clone, Debug, PartialEq, Eq)]
pub enum Command {
    Help,
    Version,
    Replay(Replay),
    Why {
        file: String,
        at: At,
        bad: Bad,
    },
    Plot {
        file: String,
        out: String,
        part: Part,
        bad: Bad,
    },
    Summary {
        files: Vec<String>,
        format: Format,
        bad: Bad,
    },
    Demo {
        folder: String,
    },
}

/// What is to be replayed, and how it is shown.
#[derive(Clone, Debug, PartialEq, Eq)]
pub struct Replay {
    pub files: Vec<String>,
    pub only: Only,
    pub format: Format,
    pub part: Part,
    pub follow: bool,
    pub bad: Bad,
}

/// The command of these words, or what is wrong with them.
pub fn command(words: &[String]) -> Result<Command, String> {
    let words: Vec<&str> = words.iter().map(String::as_str).collect();
    // Behind `--` all words are names.
    let options = words.split(|word| *word == "--").next().unwrap_or(&[]);
    if options.contains(&"--help") || options.contains(&"-h") {
        return Ok(Command::Help);
    }
    match words.as_slice() {
        [] | ["help"] => Ok(Command::Help),
        ["--version" | "-V" | "version"] => Ok(Command::Version),
        ["replay", rest @ ..] => replay(rest),
        ["why", rest @ ..] => why(rest),
        ["plot", rest @ ..] => plot(rest),
        ["summary", rest @ ..] => summary(rest),
        ["demo"] => Ok(demo("demo")),
        ["demo", folder] if !folder.starts_with('-') && !folder.is_empty() => Ok(demo(folder)),
        ["demo", ..] => Err("demo takes one FOLDER to write into, or none".to_string()),
        [other, ..] => Err(format!(
            "'{other}' is no command; expected replay, why, plot, summary or demo"
        )),
    }
}

fn demo(folder: &str) -> Command {
    Command::Demo {
        folder: folder.to_string(),
    }
}

const REPLAY: Form = Form {
    words: "replay FILE.. [--only changes] [--format text|csv|json] [--from TIME] [--to TIME] [--follow] [--skip-bad]",
    values: &["--only", "--format", "--from", "--to"],
    flags: &["--follow", "--skip-bad"],
};

fn replay(words: &[&str]) -> Result<Command, String> {
    let words = Words::of(words, &REPLAY)?;
    let only = match words.value("--only") {
        None => Only::All,
        Some("changes") => Only::Changes,
        Some(other) => return Err(format!("--only '{other}'; expected --only changes")),
    };
    let (follow, part) = (words.flag("--follow"), words.part()?);
    let files = words.files()?;
    let grows = |file: &String| file != "-" && !file.ends_with(".gz");
    let fits = files.len() == 1 && grows(&files[0]) && part == (None, None);
    if follow && !fits {
        return Err(
            "--follow goes with one FILE that is still being written, and without --from and --to"
                .to_string(),
        );
    }
    Ok(Command::Replay(Replay {
        files,
        only,
        format: words.format()?,
        part,
        follow,
        bad: words.bad(),
    }))
}

const WHY: Form = Form {
    words: "why FILE --at TIME, or --line LINE [--skip-bad]",
    values: &["--at", "--line"],
    flags: &["--skip-bad"],
};

fn why(words: &[&str]) -> Result<Command, String> {
    let words = Words::of(words, &WHY)?;
    let at = match (words.moment("--at")?, words.number("--line")?) {
        (Some(ask), None) => At::Moment(ask),
        (None, Some(line)) => At::Line(usize::try_from(line).unwrap_or(usize::MAX)),
        (None, None) => return Err(words.missing("--at")),
        _ => {
            return Err(format!(
                "--at and --line; expected one of them: {}",
                words.form.words
            ))
        }
    };
    Ok(Command::Why {
        file: words.file()?,
        at,
        bad: words.bad(),
    })
}

const PLOT: Form = Form {
    words: "plot FILE -o OUT.svg [--from TIME] [--to TIME] [--skip-bad]",
    values: &["-o", "--from", "--to"],
    flags: &["--skip-bad"],
};

fn plot(words: &[&str]) -> Result<Command, String> {
    let words = Words::of(words, &PLOT)?;
    let file = words.file()?;
    let out = words.value("-o").ok_or_else(|| words.missing("-o"))?;
    if out != "-" && !out.to_ascii_lowercase().ends_with(".svg") {
        return Err(format!(
            "-o {out}: a picture is written as SVG; expected a name that ends in .svg, or - for standard output"
        ));
    }
    Ok(Command::Plot {
        file,
        out: out.to_string(),
        part: words.part()?,
        bad: words.bad(),
    })
}

const SUMMARY: Form = Form {
    words: "summary FILE.. [--format text|csv|json] [--skip-bad]",
    values: &["--format"],
    flags: &["--skip-bad"],
};

fn summary(words: &[&str]) -> Result<Command, String> {
    let words = Words::of(words, &SUMMARY)?;
    Ok(Command::Summary {
        files: words.files()?,
        format: words.format()?,
        bad: words.bad(),
    })
}

/// How a command is called: its options with a value, and those without.
struct Form {
    words: &'static str,
    values: &'static [&'static str],
    flags: &'static [&'static str],
}

/// Files and options, in any order.
struct Words<'a> {
    form: &'static Form,
    files: Vec<&'a str>,
    options: Vec<(&'a str, &'a str)>,
}

impl<'a> Words<'a> {
    fn of(words: &[&'a str], form: &'static Form) -> Result<Words<'a>, String> {
        let mut found = Words {
            form,
            files: Vec::new(),
            options: Vec::new(),
        };
        let mut words = words.iter().copied();
        while let Some(word) = words.next() {
            if word == "--" {
                found.files.extend(words.by_ref());
            } else if word == "-" || !word.starts_with('-') {
                found.files.push(word);
            } else {
                let option = found.option(word, &mut words)?;
                found.options.push(option);
            }
        }
        Ok(found)
    }

    /// An option with its value: behind it, or behind `=`.
    fn option(
        &self,
        word: &'a str,
        rest: &mut impl Iterator<Item = &'a str>,
    ) -> Result<(&'a str, &'a str), String> {
        let form = self.form.words;
        let (name, given) = match word.split_once('=') {
            Some((name, value)) => (name, Some(value)),
            None => (word, None),
        };
        let unexpected = || format!("'{word}' is not expected here; expected {form}");
        if self.value(name).is_some() {
            return Err(unexpected());
        }
        if self.form.flags.contains(&name) && given.is_none() {
            return Ok((name, ""));
        }
        if !self.form.values.contains(&name) {
            return Err(unexpected());
        }
        let value = given.or_else(|| rest.next());
        let value = value.ok_or_else(|| format!("{name} wants a value; expected {form}"))?;
        Ok((name, value))
    }

    fn missing(&self, name: &str) -> String {
        format!("{name} is missing; expected {}", self.form.words)
    }

    fn files(&self) -> Result<Vec<String>, String> {
        match self.files.is_empty() {
            true => Err(self.missing("FILE")),
            false => Ok(self.files.iter().map(|file| file.to_string()).collect()),
        }
    }

    fn file(&self) -> Result<String, String> {
        match self.files.as_slice() {
            [file] => Ok(file.to_string()),
            [] => Err(self.missing("FILE")),
            [_, other, ..] => Err(format!(
                "'{other}' is not expected here; expected {}",
                self.form.words
            )),
        }
    }

    fn value(&self, name: &str) -> Option<&'a str> {
        let mut options = self.options.iter();
        options
            .find(|option| option.0 == name)
            .map(|option| option.1)
    }

    fn flag(&self, name: &str) -> bool {
        self.value(name).is_some()
    }

    fn bad(&self) -> Bad {
        match self.flag("--skip-bad") {
            true => Bad::Skip,
            false => Bad::Refuse,
        }
    }

    fn format(&self) -> Result<Format, String> {
        match self.value("--format") {
            None => Ok(Format::Text),
            Some(word) => Format::parse(word)
                .ok_or_else(|| format!("--format '{word}'; expected text, csv or json")),
        }
    }

    fn part(&self) -> Result<Part, String> {
        let (from, to) = (self.moment("--from")?, self.moment("--to")?);
        let reversed = match (from, to) {
            (Some(Ask::Time(from)), Some(Ask::Time(to))) => from > to,
            (Some(Ask::In(from)), Some(Ask::In(to))) => from > to,
            (Some(Ask::Wall(from)), Some(Ask::Wall(to))) => from.millis > to.millis,
            _ => false,
        };
        match (from, to) {
            (Some(from), Some(to)) if reversed => Err(format!(
                "--from {from} is after --to {to}; expected an earlier --from"
            )),
            part => Ok(part),
        }
    }

    fn moment(&self, name: &str) -> Result<Option<Ask>, String> {
        let ask = self.value(name).map(Ask::parse).transpose();
        ask.map_err(|wrong| format!("{name} {wrong}"))
    }

    fn number(&self, name: &str) -> Result<Option<u64>, String> {
        let Some(word) = self.value(name) else {
            return Ok(None);
        };
        match word.parse() {
            Ok(number) if !word.starts_with('+') => Ok(Some(number)),
            _ => Err(format!(
                "{name} '{word}' is no number; expected digits alone, like 32000"
            )),
        }
    }
}
