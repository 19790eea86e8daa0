//! What a whole log comes to, in words.

use crate::input::Damage;
use crate::lists::{Lists, Moment};
use crate::summary::{Records, Shown, Summary};
use crate::table::safe;
use crate::unsound::UNSOUND;
use crate::words::{counted, fault, grouped, CAUSES, NUMERALS, REFUSALS};
use chuldariin_log::record::contact_word;
use std::io::{self, Write};

/// A summary, and the lists that its moments are of.
pub struct Totals<'a> {
    pub summary: &'a Summary,
    pub lists: &'a Lists,
    pub damage: &'a Damage,
    /// Only a part of the log is shown; what is counted is all of it.
    pub part: bool,
}

impl Totals<'_> {
    pub fn print(&self, out: &mut impl Write) -> io::Result<()> {
        let summary = self.summary;
        let refused = summary.refused();
        let accepted = grouped(summary.calls - refused);
        let lists = match summary.lists {
            0 | 1 => String::new(),
            begins => format!(", in {} lists (begins)", grouped(begins)),
        };
        let part = if self.part { " of the whole log" } else { "" };
        writeln!(out, "\nsummary{part}")?;
        writeln!(
            out,
            "  calls     {}: {accepted} accepted, {} refused{lists}",
            grouped(summary.calls),
            grouped(refused)
        )?;
        self.damage(out)?;
        self.time(out)?;
        writeln!(out, "  closings  {}", grouped(summary.switching.closings))?;
        self.openings(out)?;
        self.firsts(out)?;
        self.refusals(out)?;
        writeln!(out, "  spacing   {}", self.spacing())?;
        if let Some(apart) = summary.switching.across {
            let apart = grouped(apart);
            writeln!(out, "            across a begin {apart} ms: a begin starts afresh, and no pause holds there")?;
        }
        self.silences(out)?;
        self.records(out)?;
        writeln!(out, "  end       {}", self.end())
    }

    /// A moment by the post's clock.
    fn at(&self, moment: Moment) -> String {
        moment.shown(self.lists.count())
    }

    /// What was left out.
    fn damage(&self, out: &mut impl Write) -> io::Result<()> {
        let damage = self.damage;
        if damage.bad_lines() > 0 {
            let lines: Vec<String> = damage
                .wrong
                .first
                .iter()
                .map(|wrong| wrong.line.to_string())
                .collect();
            let more = if damage.wrong.more > 0 { ", .." } else { "" };
            let bad = counted(damage.bad_lines(), "bad line");
            writeln!(
                out,
                "  skipped   {bad}: {}{more}; what follows one may differ from what the post did",
                lines.join(", ")
            )?;
        }
        if damage.before_begin > 0 {
            let before = counted(damage.before_begin, "line");
            writeln!(out, "  skipped   {before} before the first begin")?;
        }
        if let Some(cut) = &damage.cut {
            writeln!(
                out,
                "  skipped   what follows: the log can't be read further: {cut}"
            )?;
        }
        Ok(())
    }

    fn time(&self, out: &mut impl Write) -> io::Result<()> {
        let Some((from, to)) = self.summary.span else {
            return Ok(());
        };
        let wall = |moment| self.lists.wall(moment).map(|wall| wall.to_string());
        let walls = match (wall(from), wall(to)) {
            (Some(from), Some(to)) => format!(" ({from} to {to})"),
            (None, Some(to)) => format!(" (up to {to})"),
            _ => String::new(),
        };
        writeln!(
            out,
            "  time      {} to {} ms{walls}, closed for {} ms",
            self.at(from),
            self.at(to),
            grouped(self.summary.switching.closed)
        )
    }

    fn openings(&self, out: &mut impl Write) -> io::Result<()> {
        let switching = &self.summary.switching;
        writeln!(out, "  openings  {}", grouped(switching.all_openings()))?;
        for (cause, count) in switching.causes.iter().enumerate() {
            if *count > 0 {
                let numeral = format!("({})", NUMERALS[cause]);
                writeln!(
                    out,
                    "    {:>7}  {numeral:<5} {}",
                    grouped(*count),
                    CAUSES[cause]
                )?;
            }
            if cause == 0 {
                self.unsound(out)?;
            }
        }
        if switching.by_begin > 0 {
            writeln!(
                out,
                "    {:>7}  by a new begin",
                grouped(switching.by_begin)
            )?;
        }
        if switching.several > 0 {
            let several = grouped(switching.several);
            writeln!(
                out,
                "    {several:>7}  of them had more than one cause, and count under each"
            )?;
        }
        Ok(())
    }

    /// What cause (i) was.
    fn unsound(&self, out: &mut impl Write) -> io::Result<()> {
        for (kind, count) in UNSOUND.iter().zip(self.summary.switching.unsound) {
            if count > 0 {
                writeln!(out, "             {:>7}  {}", grouped(count), kind.words())?;
            }
        }
        Ok(())
    }

    /// Which fault was first, where there is a question of it.
    fn firsts(&self, out: &mut impl Write) -> io::Result<()> {
        let times = self.summary.firsts.iter().sum();
        if times > 0 {
            let times = counted(times, "time");
            writeln!(out, "  faults    behind another {times}; the first was")?;
        }
        for (number, count) in (0..).zip(self.summary.firsts) {
            if count > 0 {
                let name = fault(number);
                writeln!(out, "    {:>7}  {number:<5} {name}", grouped(count))?;
            }
        }
        Ok(())
    }

    fn refusals(&self, out: &mut impl Write) -> io::Result<()> {
        writeln!(out, "  refusals  {}", grouped(self.summary.refused()))?;
        for (number, words) in REFUSALS {
            let count = self.summary.refusals[number];
            if count > 0 {
                writeln!(out, "    {:>7}  {number:<5} {words}", grouped(count))?;
            }
        }
        Ok(())
    }

    /// The shortest time between two closings, against the pause.
    fn spacing(&self) -> String {
        let switching = &self.summary.switching;
        let Some(spacing) = switching.shortest else {
            return "no two closings in one list".to_string();
        };
        format!(
            "shortest time between two closings {} ms (at {} and {}); the pause is {} ms: {}",
            grouped(spacing.apart()),
            self.at(spacing.first),
            self.at(spacing.second),
            grouped(spacing.pause),
            if switching.broken == 0 {
                "kept"
            } else {
                "NOT KEPT"
            }
        )
    }

    fn silences(&self, out: &mut impl Write) -> io::Result<()> {
        let silences = &self.summary.silences;
        let Some((list, longest)) = silences.longest else {
            return Ok(());
        };
        let at = |time| self.at(Moment { list, time });
        let from = at(longest.from);
        let long = match longest.strayed {
            true => format!(
                "at least {} ms by the refused calls' own times, from {from} on",
                grouped(longest.long)
            ),
            false => format!(
                "{} ms, from {from} to {}",
                grouped(longest.long),
                at(longest.from + longest.long)
            ),
        };
        let times = counted(silences.count, "time");
        writeln!(out, "  silence   {times} without an accepted call while closed; the longest {long}: the 80 ms rule was not judged")
    }

    /// What the post recorded.
    fn records(&self, out: &mut impl Write) -> io::Result<()> {
        let records = &self.summary.records;
        if records.told > 0 {
            writeln!(out, "  told      {}", told(records))?;
        }
        if records.contacts > 0 {
            writeln!(out, "  contact   {}", contact(records))?;
        }
        for shown in &records.panel {
            writeln!(out, "  panel     {}", panel(shown, records.contacts > 0))?;
        }
        Ok(())
    }

    /// The contactor at the end, and since when nothing is judged.
    fn end(&self) -> String {
        match (self.summary.refused_now, self.summary.held) {
            (_, None) => "no begin was accepted".to_string(),
            (0, Some((_, closed))) => format!("contactor {}", contact_word(closed)),
            (refused, Some((since, closed))) => format!(
                "refused, {} in a row: nothing is judged since {}, and the contactor stays {}",
                counted(refused, "call"),
                self.at(since),
                contact_word(closed)
            ),
        }
    }
}

/// The replies that the post says it was told.
fn told(records: &Records) -> String {
    let replies = match records.told {
        1 => "1 reply".to_string(),
        told => format!("{} replies", grouped(told)),
    };
    let part = |(part, count): &(&str, u64)| format!("{part} {}", grouped(*count));
    let parts: Vec<String> = records.parts.iter().map(part).collect();
    let parts = match parts.is_empty() {
        true => String::new(),
        false => format!(": {}", parts.join(", ")),
    };
    let differ = grouped(records.differ);
    format!("{replies}, of which {differ} DIFFER from what is commanded{parts}")
}

/// The auxiliary contact.
fn contact(records: &Records) -> String {
    let times = |count: u64| match count {
        0 => "never".to_string(),
        _ => counted(count, "time"),
    };
    let failed = |(count, longest): (u64, u64)| match count {
        0 => times(0),
        _ => format!("{}, the longest {} ms", times(count), grouped(longest)),
    };
    format!(
        "{}; moved BY ITSELF {}; WELDED {}; NOT CLOSING {}",
        counted(records.contacts, "report"),
        times(records.moved),
        failed(records.welded),
        failed(records.not_closing)
    )
}

/// A text of the panel.
fn panel(shown: &Shown, reported: bool) -> String {
    let contact = match reported {
        false => String::new(),
        true => format!(", {} ms with the contact open", grouped(shown.contact_open)),
    };
    format!(
        "\"{}\" for {} ms; of it {} ms with the contactor commanded open{contact}",
        safe(&shown.text),
        grouped(shown.long),
        grouped(shown.commanded_open)
    )
}
