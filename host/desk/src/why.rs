//! The command `why`: which closing conditions hold at a moment, and which do not.

use crate::causes::{closed, notes, silent, Kind};
use crate::conditions::{conditions, waits_for};
use crate::found::{find, Answer, Found, Kept, Until, OTHERS};
use crate::grant;
use crate::input::Log;
use crate::lists::{Ask, Lists, Moment};
use crate::paint::{Colour, Paint};
use crate::running::{fault_2_due, stop_runs};
use crate::table::safe;
use crate::turn::{Silence, Turn};
use crate::words::{call, grouped, lines, wave};
use chuldariin_log::record::{contact_word, state_word};
use std::error::Error;
use std::fmt;
use std::io::{self, Write};

/// What is asked about.
#[derive(Clone, Copy, Debug, PartialEq, Eq)]
pub enum At {
    Moment(Ask),
    Line(usize),
}

/// Nothing was accepted up to there.
#[derive(Debug)]
pub struct TooEarly(String);

impl fmt::Display for TooEarly {
    fn fmt(&self, f: &mut fmt::Formatter<'_>) -> fmt::Result {
        self.0.fmt(f)
    }
}

impl Error for TooEarly {}

/// Says why the contactor is open there, or that it is closed.
pub fn why(log: &Log, at: At, paint: Paint, out: &mut impl Write) -> Result<(), Box<dyn Error>> {
    let moment = match at {
        At::Line(_) => None,
        At::Moment(ask) => Some(moment_of(log, ask)?),
    };
    let until = match (moment, at) {
        (Some(moment), _) => Until::Moment(moment),
        (None, At::Line(line)) => Until::Line(line),
        (None, At::Moment(_)) => unreachable!("a moment is found or refused"),
    };
    let answer = find(log, until)?;
    let Some(last) = answer.found.last.clone() else {
        return Err(too_early(&answer.lists).into());
    };
    let told = Told {
        answer: &answer,
        last: last.turn(),
        moment,
        at,
    };
    told.print(paint, out)
}

/// The moment that is asked for. A log with one list has no other that a time could fit, so it need not be replayed to know.
fn moment_of(log: &Log, ask: Ask) -> Result<Moment, Box<dyn Error>> {
    match ask {
        Ask::Time(time) if log.shape.lists == 1 && time >= log.shape.begin => {
            Ok(Moment { list: 1, time })
        }
        _ => Ok(crate::replay::lists_of(log)?.find_named("--at", ask)?),
    }
}

/// The answer as it is told.
struct Told<'a> {
    answer: &'a Answer,
    last: Turn<'a>,
    moment: Option<Moment>,
    at: At,
}

impl Told<'_> {
    fn print(&self, paint: Paint, out: &mut impl Write) -> Result<(), Box<dyn Error>> {
        self.heading(out)?;
        self.clock(out)?;
        self.end(out)?;
        self.state(out)?;
        self.recorded(paint, out)?;
        writeln!(out)?;
        match (self.last.reply.closed, &self.answer.found.closing) {
            (true, Some(closing)) => self.closed(&closing.turn(), paint, out)?,
            _ => self.open(paint, out)?,
        }
        Ok(())
    }

    /// A time of the answer's list.
    fn shown(&self, time: u64) -> String {
        self.answer.lists.shown(Moment {
            list: self.last.list,
            time,
        })
    }

    /// The time that is asked for; of a line that of its call.
    fn now(&self) -> u64 {
        let asked = self.answer.found.asked.as_ref();
        let asked = asked.and_then(|asked| asked.turn().credible_time());
        let now = self.moment.map(|moment| moment.time).or(asked);
        now.unwrap_or(self.last.after.last)
    }

    /// The last accepted call, and what was refused after it.
    fn heading(&self, out: &mut impl Write) -> io::Result<()> {
        let last = &self.last;
        let at = match (self.at, self.moment) {
            (At::Line(line), _) => format!("line {line}"),
            (_, Some(moment)) => self.answer.lists.shown(moment),
            _ => String::new(),
        };
        let earlier = match self.moment {
            Some(moment) if moment.time > last.after.last => {
                format!(", {} ms before", grouped(moment.time - last.after.last))
            }
            _ => String::new(),
        };
        writeln!(
            out,
            "at {at}: the last accepted call is line {}, {} at {}{earlier}",
            last.line,
            call(last),
            self.shown(last.after.last)
        )?;
        if let Some((first, count)) = &self.answer.found.refused {
            let first = first.turn();
            writeln!(
                out,
                "after it {} refused, which judge nothing; the first is line {}, {}: {}",
                grouped(*count),
                first.line,
                call(&first),
                words_of(&first, Kind::Refused)
            )?;
        }
        Ok(())
    }

    /// A clock that was refused, or that passed the time more than once.
    fn clock(&self, out: &mut impl Write) -> io::Result<()> {
        let asked = self.answer.found.asked.as_ref().map(Kept::turn);
        if let Some(asked) = asked.filter(|asked| asked.credible_time().is_none()) {
            let nearest = match self.at {
                At::Line(_) => "The call in",
                At::Moment(_) => "The call nearest to that time,",
            };
            writeln!(
                out,
                "{nearest} line {}, at {}, was refused for its own time: by the log's order it came after line {}, at {}.",
                asked.line,
                asked.call.time(),
                self.last.line,
                self.shown(self.last.after.last)
            )?;
        }
        for (line, time) in self.answer.others.iter().take(OTHERS) {
            writeln!(out, "The clock passed that time once more, after line {line}, at {time}: --line {line} tells of that.")?;
        }
        Ok(())
    }

    /// A moment past the end of its list, or a line past that of the log.
    fn end(&self, out: &mut impl Write) -> io::Result<()> {
        let lists = &self.answer.lists;
        let last = lists.get(lists.count()).map_or(0, |list| list.last_line);
        if matches!(self.at, At::Line(line) if line > last) {
            return writeln!(out, "The log's last call is line {last}.");
        }
        let list = self.moment.and_then(|moment| {
            let list = self.answer.lists.get(moment.list)?;
            let is_past = moment.time > list.end && asked_is_credible(&self.answer.found);
            is_past.then_some((moment.list, list))
        });
        let Some((number, list)) = list else {
            return Ok(());
        };
        let (end, line) = (self.shown(list.end), list.end_line);
        match self.answer.lists.get(number + 1) {
            None => writeln!(
                out,
                "The log ends at {end}, in line {line}: what came after is not in it."
            ),
            Some(next) => writeln!(
                out,
                "List {number} ends at {end}, in line {line}; line {} begins the next one.",
                next.line
            ),
        }
    }

    /// What was told.
    fn state(&self, out: &mut impl Write) -> io::Result<()> {
        let reply = &self.last.reply;
        let measure = match reply.lines.each() {
            [0, 0, 0] => String::new(),
            each => format!(", last measure {} mA", lines(each)),
        };
        writeln!(
            out,
            "state {}, wave {}{}, contactor {}, closings {}{measure}",
            state_word(reply.letter, reply.digit),
            wave(reply.wave),
            grant::shown(&self.last.after, ", "),
            contact_word(reply.closed),
            reply.closings,
        )
    }

    /// What the post recorded.
    fn recorded(&self, paint: Paint, out: &mut impl Write) -> io::Result<()> {
        let watched = &self.answer.watched;
        let mut words = Vec::new();
        let reported = watched.contact.reported();
        if let Some((closed, since)) = reported {
            words.push(format!(
                "contact {} since {}",
                contact_word(closed),
                self.shown(since)
            ));
        }
        if let Some((since, text)) = &watched.panel {
            words.push(format!(
                "panel \"{}\" since {}",
                safe(text),
                self.shown(*since)
            ));
        }
        if !words.is_empty() {
            writeln!(out, "recorded: {}", words.join(", "))?;
        }
        if let Some(failing) = watched.contact.is_failing() {
            let command = failing.fails.command();
            let words = format!(
                "The contact is {}: {} since {}, commanded {command} since {}.",
                failing.fails.words(),
                failing.fails.state(),
                reported.map_or(failing.from, |reported| reported.1),
                failing.command
            );
            writeln!(out, "{}", paint.colour(Colour::Red, &words))?;
        }
        Ok(())
    }

    fn closed(&self, closing: &Turn, paint: Paint, out: &mut impl Write) -> io::Result<()> {
        let (line, time) = (closing.line, self.shown(closing.after.last));
        writeln!(out, "The contactor is closed since line {line}, at {time}.")?;
        writeln!(out, "{}", closed(closing))?;
        running(&self.last, out)?;
        if let Some(stop) = stop_runs(&self.last) {
            writeln!(out, "{stop}")?;
        }
        let silence = self.silence();
        if silence.is_long() {
            let words = silent(&silence);
            let words = format!("{}{}.", words[..1].to_uppercase(), &words[1..]);
            writeln!(out, "{}", paint.colour(Colour::Red, &words))?;
        }
        Ok(())
    }

    /// What went by since the last accepted call: by the clock up to the end of the list, or by the refused calls' own times.
    fn silence(&self) -> Silence {
        let from = self.last.after.last;
        let list = self.answer.lists.get(self.last.list);
        let end = list.map_or(from, |list| list.end.max(from));
        let by_clock = Silence {
            from,
            long: self.now().min(end).saturating_sub(from),
            strayed: false,
            over: true,
        };
        let asked = self.answer.found.asked.as_ref();
        let found = asked.and_then(|asked| asked.turn().unjudged);
        let found = found.filter(|found| found.strayed && !found.over);
        match found.filter(|found| found.long > by_clock.long) {
            Some(strayed) => Silence {
                over: true,
                ..strayed
            },
            None => by_clock,
        }
    }

    fn open(&self, paint: Paint, out: &mut impl Write) -> io::Result<()> {
        if let Some(opening) = &self.answer.found.opening {
            let opening = opening.turn();
            let (line, time) = (opening.line, self.shown(opening.after.last));
            let words = words_of(&opening, Kind::Opened);
            writeln!(out, "{words}; line {line}, at {time}\n")?;
        }
        for condition in conditions(&self.last, self.now()) {
            let holds = match condition.holds {
                true => paint.colour(Colour::Green, "yes"),
                false => paint.colour(Colour::Red, "no "),
            };
            let line = format!("  {:<24} {holds}  {}", condition.name, condition.detail);
            writeln!(out, "{}", line.trim_end())?;
        }
        writeln!(
            out,
            "\nThe contactor waits for {}.",
            waits_for(&self.last, self.now())
        )
    }
}

fn asked_is_credible(found: &Found) -> bool {
    let asked = found.asked.as_ref();
    asked.is_some_and(|asked| asked.turn().credible_time().is_some())
}

/// An over-run that runs with the contactor closed, and when fault 2 comes.
fn running(last: &Turn, out: &mut impl Write) -> io::Result<()> {
    let Some(overrun) = last.overrun_after() else {
        return Ok(());
    };
    let restarted = match overrun.restarted() {
        false => String::new(),
        true => format!(
            ", restarted at {}, when the duty was lowered",
            overrun.start
        ),
    };
    let due = fault_2_due(&overrun);
    writeln!(
        out,
        "An over-run runs since {}{restarted}: {due}.",
        overrun.first
    )
}

/// The words of its note of a kind.
fn words_of(turn: &Turn, kind: Kind) -> String {
    let notes = notes(turn);
    let note = notes.into_iter().find(|note| note.kind == kind);
    note.map_or(String::new(), |note| note.words)
}

fn too_early(lists: &Lists) -> TooEarly {
    TooEarly(match lists.get(1) {
        Some(first) => format!(
            "no call is accepted by then; expected the first accepted call or later: line {}, at {}",
            first.line, first.begin
        ),
        None => lists.not_begun(),
    })
}
