//! The lists of a log, and how a moment in them is named: `2:59980` is 59980 ms by the post's clock in list 2.

use crate::turn::Turn;
use crate::words::refusal;
use chuldariin_log::Wall;
use std::fmt;

/// A moment: the number of its list, from 1, and the post's time there, ms.
#[derive(Clone, Copy, Debug, Default, PartialEq, Eq, PartialOrd, Ord)]
pub struct Moment {
    pub list: u32,
    pub time: u64,
}

impl Moment {
    /// With its list where there are several.
    pub fn shown(self, lists: u32) -> String {
        match lists {
            0 | 1 => self.time.to_string(),
            _ => format!("{}:{}", self.list, self.time),
        }
    }
}

/// A moment as it is asked for.
#[derive(Clone, Copy, Debug, PartialEq, Eq)]
pub enum Ask {
    /// By the post's clock, in any list that it fits.
    Time(u64),
    In(Moment),
    Wall(Wall),
}

impl fmt::Display for Ask {
    fn fmt(&self, f: &mut fmt::Formatter<'_>) -> fmt::Result {
        match self {
            Ask::Time(time) => write!(f, "{time}"),
            Ask::In(Moment { list, time }) => write!(f, "{list}:{time}"),
            Ask::Wall(wall) => write!(f, "{wall}"),
        }
    }
}

/// What is expected of a moment.
pub const FORM: &str =
    "digits alone, like 32000, 2:32000 in the second list, or a date like 2026-11-16T03:40:00Z";

impl Ask {
    /// The moment that a word names, or what is wrong with it.
    pub fn parse(word: &str) -> Result<Ask, String> {
        let number = |word: &str| match word.parse() {
            Ok(number) if !word.starts_with('+') => Some(number),
            _ => None,
        };
        if let Some(time) = number(word) {
            return Ok(Ask::Time(time));
        }
        if word.contains(['T', 't']) {
            return Wall::parse(word).map(Ask::Wall);
        }
        let moment = word.split_once(':').and_then(|(list, time)| {
            // 03:45 is a time of day, and no list.
            let list = Some(list).filter(|list| !list.starts_with('0'))?;
            let list = number(list).and_then(|list| u32::try_from(list).ok())?;
            let time = number(time)?;
            (list > 0).then_some(Moment { list, time })
        });
        let wrong = || format!("'{word}' is no time; expected {FORM}");
        moment.map(Ask::In).ok_or_else(wrong)
    }
}

/// The post's clock and the wall's at one moment; it counts from a time on.
#[derive(Clone, Copy, Debug, PartialEq, Eq)]
struct Tie {
    time: u64,
    from: u64,
    wall: Wall,
}

impl Tie {
    /// What the wall's clock shows at a time of the post's.
    fn at(&self, time: u64) -> Option<Wall> {
        let later = i64::try_from(time.checked_sub(self.time)?).ok()?;
        self.wall.plus(later)
    }

    /// The post's time when the wall's clock shows this.
    fn time_of(&self, wall: Wall) -> Option<u64> {
        let later = wall.millis.checked_sub(self.wall.millis)?;
        self.time.checked_add(u64::try_from(later).ok()?)
    }
}

/// A begin that was accepted, and the calls after it.
#[derive(Clone, Debug)]
pub struct List {
    /// Its begin: line and time.
    pub line: usize,
    pub begin: u64,
    /// The greatest time of its calls, but for times that were refused themselves.
    pub end: u64,
    /// The line of that call, and the list's last call.
    pub end_line: usize,
    pub last_line: usize,
    /// Its clock is that of the list before it, which ends here.
    pub runs_on: bool,
    ties: Vec<Tie>,
}

impl List {
    /// The times at which the wall's clock showed this; a clock that was set anew may have shown it twice.
    fn times_of(&self, wall: Wall) -> Vec<u64> {
        let later = self.ties.iter().skip(1).map(|tie| tie.from);
        let ends = later.chain([u64::MAX]);
        let times = self.ties.iter().zip(ends);
        let time = |(tie, end): (&Tie, u64)| {
            let time = tie.time_of(wall)?;
            (tie.from..end).contains(&time).then_some(time)
        };
        times.filter_map(time).collect()
    }
}

/// The lists of a log, as far as it was replayed.
#[derive(Clone, Debug, Default)]
pub struct Lists {
    all: Vec<List>,
    /// Why the first begin was refused.
    refused: Option<String>,
}

impl Lists {
    pub fn see(&mut self, turn: &Turn) {
        if turn.begins() {
            let begin = turn.after.last;
            self.all.push(List {
                line: turn.line,
                begin,
                end: begin,
                end_line: turn.line,
                last_line: turn.line,
                runs_on: turn.clock_runs_on(),
                ties: Vec::new(),
            });
        } else if self.all.is_empty() {
            self.refused_begin(turn);
        } else if let Some(list) = self.all.last_mut() {
            list.last_line = turn.line;
            if let Some(time) = turn.credible_time().filter(|time| *time >= list.end) {
                (list.end, list.end_line) = (time, turn.line);
            }
        }
    }

    /// Why the first begin is refused, as long as none is accepted.
    fn refused_begin(&mut self, turn: &Turn) {
        let (number, line) = (turn.reply.refusal, turn.line);
        let why = || format!("line {line} is refused by {number}: {}", refusal(turn));
        self.refused.get_or_insert_with(why);
    }

    /// That nothing has begun, and why.
    pub fn not_begun(&self) -> String {
        let why = self
            .refused
            .as_ref()
            .map_or(String::new(), |why| format!("; {why}"));
        format!("no call of the log is accepted: nothing has begun{why}")
    }

    /// From this moment on the wall's clock is known, in the present list.
    pub fn tie(&mut self, time: u64, wall: Wall) {
        if let Some(list) = self.all.last_mut() {
            // One that was written late says nothing of what was shown before it.
            let last = list.ties.last().map_or(0, |tie| tie.from);
            let from = time.max(last);
            list.ties.push(Tie { time, from, wall });
        }
    }

    pub fn count(&self) -> u32 {
        self.all.len() as u32
    }

    pub fn get(&self, number: u32) -> Option<&List> {
        self.all.get((number as usize).checked_sub(1)?)
    }

    /// A time of the present list.
    pub fn now(&self, time: u64) -> Moment {
        let list = self.count();
        Moment { list, time }
    }

    /// What the wall's clock shows, if that is known by then.
    pub fn wall(&self, moment: Moment) -> Option<Wall> {
        let ties = &self.get(moment.list)?.ties;
        let tie = ties.iter().rev().find(|tie| tie.from <= moment.time)?;
        tie.at(moment.time)
    }

    /// A moment in words: by the post's clock, and by the wall's if that is known.
    pub fn shown(&self, moment: Moment) -> String {
        let time = moment.shown(self.count());
        match self.wall(moment) {
            Some(wall) => format!("{time} ({wall})"),
            None => time,
        }
    }

    /// The moment that is asked for, or why there is none.
    pub fn find(&self, ask: Ask) -> Result<Moment, NoMoment> {
        let moments: Vec<Moment> = match ask {
            Ask::In(moment)
                if self
                    .get(moment.list)
                    .is_some_and(|list| moment.time >= list.begin) =>
            {
                vec![moment]
            }
            Ask::In(_) => Vec::new(),
            Ask::Time(time) => self.fitting(time),
            Ask::Wall(wall) => self.fitting_wall(wall),
        };
        match moments.as_slice() {
            [moment] => Ok(*moment),
            [] => Err(self.none(ask)),
            [first, .., last] => {
                // A clock that was set back shows a time twice.
                let what = if first.list == last.list {
                    "moments"
                } else {
                    "lists"
                };
                Err(NoMoment {
                    words: format!("{ask} fits {} {what}", moments.len()),
                    expected: format!("one of them: {}", named(&moments)),
                })
            }
        }
    }

    /// A bare time before the first begin, that fits no other list.
    pub fn is_early(&self, ask: Ask) -> bool {
        let begin = self.get(1).map_or(0, |first| first.begin);
        matches!(ask, Ask::Time(time) if time < begin) && self.find(ask).is_err()
    }

    /// The moment that an option asks for.
    pub fn find_named(&self, option: &str, ask: Ask) -> Result<Moment, NoMoment> {
        self.find(ask).map_err(|none| NoMoment {
            words: format!("{option} {ask}: {}", none.words),
            ..none
        })
    }

    /// The lists that a time lies in; after the end of all it is of the last one.
    fn fitting(&self, time: u64) -> Vec<Moment> {
        let mut moments = Vec::new();
        for (place, list) in self.all.iter().enumerate() {
            let next = self.all.get(place + 1).filter(|next| next.runs_on);
            let until = next.map_or(list.end, |next| list.end.max(next.begin.saturating_sub(1)));
            if (list.begin..=until).contains(&time) {
                let list = place as u32 + 1;
                moments.push(Moment { list, time });
            }
        }
        let is_late = self.all.last().is_some_and(|last| time > last.end);
        if moments.is_empty() && is_late {
            moments.push(self.now(time));
        }
        moments
    }

    /// The moments at which the wall's clock showed this.
    fn fitting_wall(&self, wall: Wall) -> Vec<Moment> {
        let lists = (1..).zip(&self.all);
        let times = lists.flat_map(|(list, found)| {
            let times = found.times_of(wall).into_iter();
            times.map(move |time| Moment { list, time })
        });
        let mut moments: Vec<Moment> = times.collect();
        // Where the log has such a moment, the time after the end of an earlier list is none.
        let is_inside = |moment: &Moment| {
            self.get(moment.list)
                .is_some_and(|list| moment.time <= list.end)
        };
        match moments.iter().any(is_inside) {
            true => moments.retain(is_inside),
            false => moments = moments.pop().into_iter().collect(),
        }
        moments
    }

    /// Why nothing fits.
    fn none(&self, ask: Ask) -> NoMoment {
        let no = |words: String, expected: String| NoMoment { words, expected };
        match (ask, self.all.first()) {
            (_, None) => no(self.not_begun(), String::new()),
            (Ask::In(Moment { list, .. }), _) => match self.get(list) {
                Some(found) => no(
                    format!(
                        "list {list} begins at {}, in line {}",
                        found.begin, found.line
                    ),
                    format!("{list}:{} or later", found.begin),
                ),
                None => no(
                    format!("the log has no list {list}"),
                    format!("a list from 1 to {}", self.count()),
                ),
            },
            (Ask::Wall(asked), _) => match self.first_tie() {
                Some((_, wall)) if asked.millis >= wall.millis => no(
                    "the wall's clock never showed that: it was set past it".to_string(),
                    "a time of the post's clock".to_string(),
                ),
                Some((moment, wall)) => no(
                    format!(
                        "the wall's clock is known from {wall} on, which is {}",
                        moment.shown(self.count())
                    ),
                    "a later date, or a time of the post's clock".to_string(),
                ),
                None => no(
                    "the log does not tell the wall's clock".to_string(),
                    "a time of the post's clock, or a line clock TIME DATE in the log".to_string(),
                ),
            },
            (Ask::Time(time), Some(first)) => no(
                format!("no list has begun by {time}"),
                format!("{} or later: line {}", first.begin, first.line),
            ),
        }
    }

    fn first_tie(&self) -> Option<(Moment, Wall)> {
        let ties = (1..).zip(&self.all);
        let mut ties = ties.filter_map(|(list, found)| Some((list, found.ties.first()?)));
        ties.next().map(|(list, tie)| {
            let time = tie.time;
            (Moment { list, time }, tie.wall)
        })
    }
}

fn named(moments: &[Moment]) -> String {
    let few = moments.iter().take(8);
    let mut names: Vec<String> = few.map(|moment| moment.shown(2)).collect();
    if moments.len() > names.len() {
        names.push("..".to_string());
    }
    names.join(", ")
}

/// A moment that the log does not have, or has more than once.
#[derive(Debug)]
pub struct NoMoment {
    words: String,
    expected: String,
}

impl fmt::Display for NoMoment {
    fn fmt(&self, f: &mut fmt::Formatter<'_>) -> fmt::Result {
        match self.expected.is_empty() {
            true => write!(f, "{}", self.words),
            false => write!(f, "{}; expected {}", self.words, self.expected),
        }
    }
}

impl std::error::Error for NoMoment {}
