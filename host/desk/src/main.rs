//! The command `chuldariin`.

use chuldariin_desk::data::Format;
use chuldariin_desk::fold::{width_of_stdout, Folded};
use chuldariin_desk::input::{read, shown, Bad, Damage, Unfit};
use chuldariin_desk::lists::NoMoment;
use chuldariin_desk::many::Replayed;
use chuldariin_desk::options::{command, Command, Replay, USAGE};
use chuldariin_desk::paint::Paint;
use chuldariin_desk::plot::{plot, title, NothingThere};
use chuldariin_desk::progress::Progress;
use chuldariin_desk::replay::{replay, stream, Only, Part, Show};
use chuldariin_desk::turn::Differs;
use chuldariin_desk::why::{why, TooEarly};
use chuldariin_desk::words::counted;
use chuldariin_desk::{demo, many, overview, source, write};
use std::error::Error;
use std::fs;
use std::io::{self, BufWriter, StdoutLock, Write};
use std::process::ExitCode;

/// It could not be finished.
const FAILED: u8 = 1;
/// The log or the command is wrong.
const WRONG: u8 = 2;

type Out<'a> = BufWriter<StdoutLock<'a>>;

fn main() -> ExitCode {
    let words = std::env::args_os().skip(1).map(|word| word.into_string());
    let asked = match words.collect::<Result<Vec<String>, _>>() {
        Ok(words) => command(&words),
        Err(word) => Err(format!("{word:?} is not UTF-8; expected names that are")),
    };
    let ended = match asked {
        Ok(command) => run(command),
        Err(what) => {
            complain(&format!("{what}\n(chuldariin --help has all of it)\n"));
            return ExitCode::from(WRONG);
        }
    };
    match ended {
        Ok(status) => ExitCode::from(status),
        // Whoever read the output has had enough of it.
        Err(error) if is_closed_pipe(&*error) => ExitCode::SUCCESS,
        Err(error) => {
            complain(&format!("{error}\n"));
            ExitCode::from(if is_wrong(&*error) { WRONG } else { FAILED })
        }
    }
}

/// If nobody listens, the exit status has to do.
fn complain(what: &str) {
    let _ = write!(io::stderr(), "chuldariin: {what}");
}

fn is_wrong(error: &(dyn Error + 'static)) -> bool {
    error.is::<Unfit>()
        || error.is::<TooEarly>()
        || error.is::<NothingThere>()
        || error.is::<NoMoment>()
}

fn is_closed_pipe(error: &(dyn Error + 'static)) -> bool {
    error
        .downcast_ref::<io::Error>()
        .is_some_and(|error| error.kind() == io::ErrorKind::BrokenPipe)
}

fn run(command: Command) -> Result<u8, Box<dyn Error>> {
    let mut out = BufWriter::with_capacity(1 << 16, io::stdout().lock());
    let paint = Paint::for_stdout();
    let mut status = 0;
    match command {
        Command::Help => write!(out, "{USAGE}")?,
        Command::Version => writeln!(out, "chuldariin {}", env!("CARGO_PKG_VERSION"))?,
        Command::Replay(asked) => replay_all(&asked, paint, &mut out)?,
        Command::Why { file, at, bad } => {
            let log = read(&file, bad)?;
            damaged(log.name(), &log.damage);
            let mut folded = Folded::new(&mut out, width_of_stdout());
            why(&log, at, paint, &mut folded)?;
        }
        Command::Plot {
            file,
            out: name,
            part,
            bad,
        } => picture(&file, &name, part, bad, &mut out)?,
        Command::Summary { files, format, bad } => {
            let logs = many::all(&files, bad);
            let width = width_of_stdout().filter(|_| format == Format::Text);
            overview::print(&logs, format, &mut Folded::new(&mut out, width))?;
            logs.iter().for_each(told_damage);
            status = logs.iter().map(status_of).max().unwrap_or(0);
        }
        Command::Demo { folder } => demo::demo(&folder, paint, &mut out)?,
    }
    out.flush()?;
    Ok(status)
}

/// Replays one log after the other.
fn replay_all(asked: &Replay, paint: Paint, out: &mut Out) -> Result<(), Box<dyn Error>> {
    let width = width_of_stdout();
    let several = asked.files.len() > 1 && asked.format == Format::Text;
    for (place, file) in asked.files.iter().enumerate() {
        if several {
            let apart = if place == 0 { "" } else { "\n" };
            writeln!(out, "{apart}==> {} <==", shown(file))?;
        }
        let show = Show {
            only: asked.only,
            format: asked.format,
            paint,
            width,
            headed: place == 0,
        };
        let whole = asked.part != (None, None) || !source::is_stream(file);
        match whole && !asked.follow {
            true => replay_one(file, asked, show, out)?,
            false => stream_one(file, asked, show, out)?,
        }
    }
    Ok(())
}

/// A log that can be read to its end before it is replayed.
fn replay_one(file: &str, asked: &Replay, show: Show, out: &mut Out) -> Result<(), Box<dyn Error>> {
    let log = read(file, asked.bad)?;
    damaged(log.name(), &log.damage);
    let progress = Progress::of(log.shape.calls, show.only == Only::All);
    replay(&log, asked.part, show, progress, out)
}

/// A log that is replayed as it comes.
fn stream_one(file: &str, asked: &Replay, show: Show, out: &mut Out) -> Result<(), Box<dyn Error>> {
    let input = match asked.follow {
        true => source::growing(file),
        false => source::stream(file),
    };
    let input = input.map_err(|error| Unfit::from(error).of(file))?;
    let damage = stream(file, input, asked.bad, show, out)?;
    out.flush()?;
    damaged(shown(file), &damage);
    if asked.follow {
        complain(&format!(
            "{file}: it was replaced or cut, and is followed no further\n"
        ));
    }
    Ok(())
}

/// The worst of what happened to a log: wrong, or not to be explained.
fn status_of(log: &Replayed) -> u8 {
    match &log.whole {
        Ok(_) => 0,
        Err(error) if error.is::<Differs>() => FAILED,
        Err(_) => WRONG,
    }
}

fn told_damage(log: &Replayed) {
    if let Ok(whole) = &log.whole {
        damaged(&log.name, &whole.damage);
    }
}

/// Says what was left out of a log, and what may be torn.
fn damaged(name: &str, damage: &Damage) {
    if damage.bad_lines() > 0 {
        let lines = damage.wrong.to_string().replace('\n', "\n  ");
        complain(&format!("{name}: bad lines are left out, and what follows one may differ from what the post did:\n  {lines}\n"));
    }
    if damage.before_begin > 0 {
        let lines = counted(damage.before_begin, "line");
        complain(&format!(
            "{name}: {lines} before the first begin left out\n"
        ));
    }
    if let Some(cut) = &damage.cut {
        complain(&format!(
            "{name}: the log can't be read to its end: {cut}\n"
        ));
    }
    if let Some(line) = damage.unended {
        complain(&format!("{name}: line {line}, the last one, has no line end and may be torn; it is replayed as it stands (--skip-bad leaves it out)\n"));
    }
}

/// Draws a log, and never writes over it.
fn picture(
    file: &str,
    name: &str,
    part: Part,
    bad: Bad,
    out: &mut Out,
) -> Result<(), Box<dyn Error>> {
    let log = read(file, bad)?;
    damaged(log.name(), &log.damage);
    let svg = plot(&log, &title(log.name()), part)?;
    if name == "-" {
        return Ok(out.write_all(svg.as_bytes())?);
    }
    if let (Ok(log), Ok(out)) = (fs::canonicalize(file), fs::canonicalize(name)) {
        if log == out {
            return Err(Unfit::Overwritten(name.to_string()).into());
        }
    }
    write::whole(name, &svg)
}
