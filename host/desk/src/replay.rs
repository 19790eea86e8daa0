//! The command `replay`: one line a call, and a summary.

use crate::case::{Case, Seen, What, AHEAD};
use crate::causes::{note, notes, Kind, Note};
use crate::contact::Event;
use crate::data::{Format, Rows};
use crate::fold::Folded;
use crate::input::{Bad, Damage, Lines, Log, Shape, Taken, Unfit};
use crate::lists::{Ask, Lists, Moment};
use crate::paint::Paint;
use crate::progress::Progress;
use crate::recorded::Difference;
use crate::rows::{row, FIELDS};
use crate::source::Input;
use crate::summary::Summary;
use crate::table::{record_words, Table};
use crate::totals::Totals;
use crate::turn::Turn;
use crate::words::grouped;
use chuldariin::raw;
use chuldariin_log::{Entry, Line, Wrong};
use std::error::Error;
use std::io::{self, Write};

/// Which lines are shown.
#[derive(Clone, Copy, Debug, PartialEq, Eq)]
pub enum Only {
    All,
    /// Those where the reply changed, but for the currents of a measure, or the grant, or something happened.
    Changes,
}

/// From which moment to which; none is the end of the log.
pub type Part = (Option<Ask>, Option<Ask>);

/// How a replay is shown.
#[derive(Clone, Copy)]
pub struct Show {
    pub only: Only,
    pub format: Format,
    pub paint: Paint,
    /// The width of the terminal, if it goes to one.
    pub width: Option<usize>,
    /// Rows of CSV start with their heading; of several logs only the first does.
    pub headed: bool,
}

impl Show {
    /// In words, whole.
    pub fn text(only: Only) -> Show {
        Show {
            only,
            format: Format::Text,
            paint: Paint::none(),
            width: None,
            headed: true,
        }
    }
}

/// Replays a log that was read before.
pub fn replay(
    log: &Log,
    part: Part,
    show: Show,
    mut progress: Progress,
    out: &mut impl Write,
) -> Result<(), Box<dyn Error>> {
    let ends = match part {
        (None, None) => Ends::default(),
        (from, to) => {
            let lists = lists_of(log)?;
            Ends::find(&lists, from, to)?
        }
    };
    let mut replay = Replay::new(log.name(), log.shape.clone(), ends, show);
    let mut lines = log.lines()?;
    while let Some(taken) = lines.next().map_err(|unfit| unfit.of(log.name()))? {
        progress.clear();
        replay.take(&taken, out)?;
        progress.written(out)?;
        progress.step();
    }
    progress.clear();
    replay.end(&lines.damage, out)
}

/// Replays a log as it comes.
pub fn stream(
    name: &str,
    input: Input,
    bad: Bad,
    show: Show,
    out: &mut impl Write,
) -> Result<Damage, Box<dyn Error>> {
    let named = |unfit: Unfit| unfit.of(name);
    let mut replay = Replay::new(
        crate::input::shown(name),
        Shape::default(),
        Ends::default(),
        show,
    );
    let mut lines = Lines::new(input, bad).map_err(named)?;
    // A log that is wrong from its start is refused whole.
    let mut early = Vec::new();
    loop {
        if !lines.is_ready() {
            out.flush()?;
        }
        let Some(taken) = lines.next().map_err(named)? else {
            break;
        };
        early.push(taken);
        if lines.has_begun() {
            early
                .drain(..)
                .try_for_each(|taken| replay.grow(&taken, out))?;
        }
    }
    replay.end(&lines.damage, out)?;
    Ok(lines.damage)
}

/// The lists of a log, found by a replay that shows nothing.
pub fn lists_of(log: &Log) -> Result<Lists, Box<dyn Error>> {
    let mut case = Case::default();
    let mut lines = log.lines()?;
    while let Some(taken) = lines.next().map_err(|unfit| unfit.of(log.name()))? {
        if let Taken::Entry(entry) = &taken {
            case.see(entry)?;
        }
    }
    Ok(case.lists)
}

/// The moments between which lines are shown.
#[derive(Clone, Copy, Default)]
struct Ends {
    from: Option<Moment>,
    to: Option<Moment>,
}

impl Ends {
    fn find(lists: &Lists, from: Option<Ask>, to: Option<Ask>) -> Result<Ends, Box<dyn Error>> {
        // Before the first begin there is nothing that could be left out.
        let from = from.filter(|ask| !lists.is_early(*ask));
        let from = from
            .map(|ask| lists.find_named("--from", ask))
            .transpose()?;
        let to = to.map(|ask| lists.find_named("--to", ask)).transpose()?;
        Ok(Ends { from, to })
    }

    fn is_part(&self) -> bool {
        self.from.is_some() || self.to.is_some()
    }

    fn has(&self, moment: Moment) -> bool {
        self.from.is_none_or(|from| from <= moment) && self.to.is_none_or(|to| moment <= to)
    }
}

/// How the lines are written.
enum Printer {
    Table(Box<Table>),
    Rows(Rows),
}

/// A replay that goes on.
struct Replay<'a> {
    name: &'a str,
    only: Only,
    width: Option<usize>,
    ends: Ends,
    printer: Printer,
    case: Case,
    summary: Summary,
    since: Since,
    /// The line before lies in the part that is shown, and some line did.
    inside: bool,
    shown: bool,
}

impl<'a> Replay<'a> {
    fn new(name: &'a str, shape: Shape, ends: Ends, show: Show) -> Replay<'a> {
        Replay {
            name,
            only: show.only,
            width: show.width,
            ends,
            printer: match show.format {
                Format::Text => Printer::Table(Box::new(Table::new(shape, show.paint, show.width))),
                format => Printer::Rows(Rows::new(format, &FIELDS, show.headed)),
            },
            case: Case::default(),
            summary: Summary::default(),
            since: Since::default(),
            inside: !ends.is_part(),
            shown: false,
        }
    }

    /// A line of a log that is not known as a whole: it may bring a column.
    fn grow(&mut self, taken: &Taken, out: &mut impl Write) -> Result<(), Box<dyn Error>> {
        if let (Taken::Entry(entry), Printer::Table(table)) = (taken, &mut self.printer) {
            table.see(entry);
        }
        self.take(taken, out)
    }

    fn take(&mut self, taken: &Taken, out: &mut impl Write) -> Result<(), Box<dyn Error>> {
        match taken {
            Taken::Entry(entry) => self.entry(entry, out),
            Taken::Bad(wrong) => Ok(self.bad(wrong, out)?),
        }
    }

    fn entry(&mut self, entry: &Entry, out: &mut impl Write) -> Result<(), Box<dyn Error>> {
        let seen = self.case.see(entry)?;
        self.summary.see(&seen);
        let notes = self.since.notes(&seen);
        // A line without a time stands where the line before it does.
        self.inside = match seen.what {
            What::Call(_) | What::Contact(_) | What::Panel(_) => self.ends.has(seen.moment),
            _ => self.inside,
        };
        let changed = self.only == Only::All || self.since.changed(&seen, &notes);
        if changed && self.inside {
            self.print(entry, &seen, &notes, out)?;
            self.shown = true;
        }
        self.since.see(&seen);
        Ok(())
    }

    fn print(
        &mut self,
        entry: &Entry,
        seen: &Seen,
        notes: &[Note],
        out: &mut impl Write,
    ) -> io::Result<()> {
        let table = match &mut self.printer {
            Printer::Rows(rows) => return row(rows, self.name, entry, seen, notes, out),
            Printer::Table(table) => table,
        };
        match (&seen.what, &entry.what) {
            (What::Comment(text), _) => table.comment(out, text),
            (What::Call(turn), _) => table.row(out, seen, turn, notes),
            // A reply that was told as commanded is counted, and no more.
            (What::Told(..), _) if notes.is_empty() => Ok(()),
            (_, Line::Record(record)) => table.record(out, seen, &record_words(record), notes),
            _ => Ok(()),
        }
    }

    fn bad(&mut self, wrong: &Wrong, out: &mut impl Write) -> io::Result<()> {
        match &mut self.printer {
            Printer::Rows(_) => Ok(()),
            Printer::Table(table) => {
                let words = format!(
                    "bad line, left out: {}; expected {}",
                    wrong.what, wrong.expected
                );
                table.bad(out, wrong.line, note(Kind::Warned, words))
            }
        }
    }

    /// The log is over.
    fn end(mut self, damage: &Damage, out: &mut impl Write) -> Result<(), Box<dyn Error>> {
        self.summary.finish(&self.case);
        if let Printer::Rows(rows) = &mut self.printer {
            rows.start(out)?;
        }
        if let Printer::Table(_) = self.printer {
            if !self.shown {
                writeln!(out, "no line of the log lies there")?;
            }
            let totals = Totals {
                summary: &self.summary,
                lists: &self.case.lists,
                damage,
                part: self.ends.is_part(),
            };
            totals.print(&mut Folded::new(out, self.width))?;
        }
        Ok(())
    }
}

/// What the next call is compared with.
#[derive(Default)]
struct Since {
    reply: Option<raw::Reply>,
    /// Calls refused in a row, and the last of them.
    refused: u64,
    refused_call: Option<(u8, &'static str)>,
    contact: Option<bool>,
    panel: Option<String>,
}

impl Since {
    /// What is to be said of a line; after several refused calls, that they are over.
    fn notes(&self, seen: &Seen) -> Vec<Note> {
        let mut said = match &seen.what {
            What::Call(turn) => notes(turn),
            What::Told(_, Some(differences)) => told(differences),
            What::Told(_, None) => {
                let words = "nothing was commanded by a refused begin, so it is not compared";
                vec![note(Kind::Event, words.to_string())]
            }
            _ => Vec::new(),
        };
        if seen.ahead > AHEAD {
            let ahead = grouped(seen.ahead);
            let words =
                format!("its time is {ahead} ms after the last call's: is it of another clock?");
            said.push(note(Kind::Warned, words));
        }
        if let What::Call(turn) = &seen.what {
            if turn.accepted() && self.refused > 1 {
                let words = format!("accepted again, after {} refused", grouped(self.refused));
                said.push(note(Kind::Event, words));
            }
        }
        said.extend(
            seen.contact
                .map(|event| note(Kind::Warned, contact(&event))),
        );
        said
    }

    /// Did what is told change, or is there something to say?
    fn changed(&self, seen: &Seen, notes: &[Note]) -> bool {
        match &seen.what {
            What::Call(turn) => self.call_changed(turn, notes),
            What::Contact(closed) => self.contact != Some(*closed) || !notes.is_empty(),
            What::Panel(text) => self.panel.as_deref() != Some(*text) || !notes.is_empty(),
            What::Told(..) => !notes.is_empty(),
            What::Comment(_) | What::Clock | What::Travel => true,
        }
    }

    /// Of equal refusals of one kind of call in a row the first counts.
    fn call_changed(&self, turn: &Turn, notes: &[Note]) -> bool {
        let Some(before) = self.reply else {
            return true;
        };
        match turn.accepted() {
            true => {
                raw::Reply {
                    refusal: 0,
                    lines: turn.reply.lines,
                    ..before
                } != turn.reply
                    || turn.before.grant != turn.after.grant
                    || !notes.is_empty()
            }
            false => {
                self.refused_call != Some((turn.reply.refusal, turn.call.word()))
                    || notes.iter().any(|note| note.kind == Kind::Warned)
            }
        }
    }

    fn see(&mut self, seen: &Seen) {
        match &seen.what {
            What::Call(turn) => self.called(turn),
            What::Contact(closed) => self.contact = Some(*closed),
            What::Panel(text) => self.panel = Some(text.to_string()),
            _ => {}
        }
    }

    fn called(&mut self, turn: &Turn) {
        // A refused begin comes alone, and tells nothing of the controller.
        if turn.reply.letter != 0 || self.reply.is_none() {
            self.reply = Some(turn.reply);
        }
        let refused = !turn.accepted();
        self.refused = if refused { self.refused + 1 } else { 0 };
        self.refused_call = refused.then(|| (turn.reply.refusal, turn.call.word()));
    }
}

/// Where the post says otherwise than commanded.
fn told(differences: &[Difference]) -> Vec<Note> {
    if differences.is_empty() {
        return Vec::new();
    }
    let words: Vec<String> = differences.iter().map(Difference::words).collect();
    let words = format!("DIFFERS: told {}", words.join("; "));
    vec![note(Kind::Warned, words)]
}

/// What is to be said of the contact.
pub fn contact(event: &Event) -> String {
    match event {
        Event::Moves(failing) => format!(
            "contact {} BY ITSELF, commanded {} since {}",
            failing.fails.state(),
            failing.fails.command(),
            failing.command
        ),
        Event::Fails(failing, long) => format!(
            "contact {}: {} for {} ms, commanded {} since {}",
            failing.fails.words(),
            failing.fails.state(),
            grouped(*long),
            failing.fails.command(),
            failing.command
        ),
        Event::Ends(failing, long) => format!(
            "contact was {} for {} ms, from {} on",
            failing.fails.words(),
            grouped(*long),
            failing.from
        ),
    }
}
