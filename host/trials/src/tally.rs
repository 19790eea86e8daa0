//! How often everything that should occur did.

use crate::pair::Seen;
use crate::tally_link::Since;
use chuldariin_log::{Call, Room};
use chuldariin_model::{begin, driven, refusal_of_call, Begin, Conditions, Event, Order, State};
use std::collections::BTreeMap;

/// Sets of opening causes: bit 0 is cause (i), bit 4 is cause (v).
pub const CAUSES: [&str; 32] = [
    "none",
    "i",
    "ii",
    "i ii",
    "iii",
    "i iii",
    "ii iii",
    "i ii iii",
    "iv",
    "i iv",
    "ii iv",
    "i ii iv",
    "iii iv",
    "i iii iv",
    "ii iii iv",
    "i ii iii iv",
    "v",
    "i v",
    "ii v",
    "i ii v",
    "iii v",
    "i iii v",
    "ii iii v",
    "i ii iii v",
    "iv v",
    "i iv v",
    "ii iv v",
    "i ii iv v",
    "iii iv v",
    "i iii iv v",
    "ii iii iv v",
    "i ii iii iv v",
];

/// Letter and digit.
pub const STATES: [&str; 11] = [
    "U0", "A1", "A2", "B1", "B2", "C1", "C2", "D1", "D2", "E0", "F0",
];

const NUMBERS: [&str; 14] = [
    "0", "1", "2", "3", "4", "5", "6", "7", "8", "9", "10", "11", "12", "13",
];
/// Refusal numbers that a post of either kind can tell, besides 13.
pub const REFUSALS: &[&str] = NUMBERS.split_at(9).0;
pub const FAULTS: [&str; 5] = ["1", "2", "3", "4", "5"];

/// Lengths of windows at the ends of their range.
pub const LENGTHS: [(&str, usize); 8] = [
    ("0", 0),
    ("1", 1),
    ("255", 255),
    ("256", 256),
    ("257", 257),
    ("1,023", 1_023),
    ("1,024", 1_024),
    ("1,025", 1_025),
];

/// A limit just out of range, and the largest number: refused by 13. And the largest that is stored.
pub const LIMITS: [&str; 3] = ["80,000, stored", "80,001, refused", "largest, refused"];
/// Refused limits where 13 held as well.
pub const OVER_13: [&str; 2] = ["2 over 13", "3 over 13"];

/// What a measure shows on line 1, 2 or 3.
pub const LARGEST_ON: [&str; 3] = ["largest on 1", "largest on 2", "largest on 3"];
pub const MOST_ON: [&str; 3] = ["200,000 on 1", "200,000 on 2", "200,000 on 3"];
pub const ABOVE_ON: [&str; 3] = ["200,001 on 1", "200,001 on 2", "200,001 on 3"];
pub const STARTS_ON: [&str; 3] = ["over-run by 1", "over-run by 2", "over-run by 3"];

/// The posts in which a name is wanted.
#[derive(Clone, Copy, Debug, PartialEq, Eq)]
pub enum Posts {
    /// In one of either kind.
    Any,
    Plain,
    Digital,
    /// In one of each kind.
    Each,
}

impl Posts {
    /// Is it met by so many in plain posts, and in digital ones?
    fn met(self, [plain, digital]: [u64; 2]) -> bool {
        match self {
            Posts::Any => plain + digital > 0,
            Posts::Plain => plain > 0,
            Posts::Digital => digital > 0,
            Posts::Each => plain > 0 && digital > 0,
        }
    }
}

/// Names of a group that are wanted, and where.
pub type Wanted = (Posts, &'static str, &'static [&'static str]);

/// Counts by group and name.
#[derive(Clone, Debug, Default)]
pub struct Tally {
    /// In plain posts, and in digital ones.
    counts: BTreeMap<(&'static str, &'static str), [u64; 2]>,
    /// The mark of the post that is counted.
    digital: bool,
    /// When an over-run last restarted.
    pub(crate) restart: Option<u64>,
    pub(crate) since: Since,
    /// The order that the last clear has dropped.
    pub(crate) dropped: Option<Order>,
}

impl Tally {
    pub fn count(&mut self, group: &'static str, name: &'static str) {
        self.counts.entry((group, name)).or_default()[usize::from(self.digital)] += 1;
    }

    /// In posts of either kind.
    pub fn of(&self, group: &'static str, name: &'static str) -> u64 {
        self.by_kind(group, name).into_iter().sum()
    }

    fn by_kind(&self, group: &'static str, name: &'static str) -> [u64; 2] {
        self.counts.get(&(group, name)).copied().unwrap_or([0; 2])
    }

    /// Adds the counts of another tally.
    pub fn add(&mut self, other: &Tally) {
        for (key, [plain, digital]) in &other.counts {
            let counts = self.counts.entry(*key).or_default();
            counts[0] += plain;
            counts[1] += digital;
        }
    }

    /// Counts one call on which both sides agreed.
    pub fn see(&mut self, seen: &Seen) {
        self.digital = seen.after.digital;
        let reply = seen.outcome.reply;
        self.count("refusal", NUMBERS[reply.refusal as usize]);
        self.see_state(reply.letter, reply.digit);
        self.see_first(&reply);
        if let Call::Sample(_, window) = seen.call {
            self.see_length(window.length());
        }
        self.see_limit(seen);
        if reply.refusal != 0 {
            self.count("refused", seen.call.word());
            self.see_order(seen);
            self.see_refused_measure(seen);
            self.see_refused_link(seen);
            return;
        }
        self.count("accepted", seen.call.word());
        self.see_contactor(seen);
        self.see_faults(seen);
        self.see_ages(seen);
        self.see_duty(seen);
        self.see_link(seen);
        self.see_conditions(&seen.outcome.conditions);
        self.see_measure(seen);
        if let Call::Sample(_, window) = seen.call {
            self.see_window(&window.to_vec());
        }
    }

    fn see_state(&mut self, letter: u8, digit: u8) {
        let state = [letter, b'0' + digit];
        if let Some(name) = STATES.iter().find(|name| name.as_bytes() == state) {
            self.count("state", name);
        }
    }

    /// Refusals where a later one in their order held as well.
    fn see_order(&mut self, seen: &Seen) {
        let mut room = Room::default();
        let Some(event) = seen.call.event(&mut room) else {
            return;
        };
        match seen.outcome.reply.refusal {
            3 if seen.call.time() < seen.before.last => self.count("order", "3 over 2"),
            3 if altered(&seen.before) => self.count("order", "3 over 1"),
            2 if altered(&seen.before) => self.count("order", "2 over 1"),
            1 if refused_anyway(&event) => self.count("order", "1 over 4 to 8"),
            _ => {}
        }
    }

    /// Limits at the ends of what is stored and refused, and the refusals that come before 13.
    fn see_limit(&mut self, seen: &Seen) {
        let Call::Limit(_, limit) = *seen.call else {
            return;
        };
        let in_range = !altered(&seen.before);
        match (seen.outcome.reply.refusal, limit) {
            (0, 80_000) => self.count("limit", "80,000, stored"),
            (13, 80_001) => self.count("limit", "80,001, refused"),
            (13, u32::MAX) => self.count("limit", "largest, refused"),
            (1, 80_001..) => self.count("order", "1 over 13"),
            (2, 80_001..) if in_range => self.count("order", "2 over 13"),
            (3, 80_001..) if in_range => self.count("order", "3 over 13"),
            _ => {}
        }
    }

    /// Which line made a measure just out of range, where the others are in range.
    fn see_refused_measure(&mut self, seen: &Seen) {
        if let (7, Call::MeasureLines(_, lines)) = (seen.outcome.reply.refusal, seen.call) {
            let line = only(lines.map(|line| line > 200_000));
            if let Some(line) = line.filter(|&line| lines[line] == 200_001) {
                self.count("refused lines", ABOVE_ON[line]);
            }
        }
    }

    /// Where the largest current was, and what followed.
    fn see_measure(&mut self, seen: &Seen) {
        let (before, after) = (&seen.before, &seen.after);
        let Call::MeasureLines(_, lines) = *seen.call else {
            return;
        };
        for (line, current) in lines.into_iter().enumerate() {
            if current == 200_000 {
                self.count("lines", MOST_ON[line]);
            }
        }
        let changed = before.lines != after.lines;
        if changed && !before.closed {
            self.count("lines", "kept open");
        }
        if changed && before.closed && !driven(before.digital, before.wave) {
            self.count("lines", "kept in a stop");
        }
        let most = lines.into_iter().max().unwrap_or(0);
        let starts = before.overrun.is_none() && after.overrun.is_some();
        if let Some(line) = only(lines.map(|line| line == most)) {
            self.count("lines", LARGEST_ON[line]);
            if starts {
                self.count("lines", STARTS_ON[line]);
            }
        }
        if before.closed && after.closed && after.overrun.is_none() && over_together(before, lines)
        {
            self.count("lines", "over together, none alone");
        }
    }

    fn see_contactor(&mut self, seen: &Seen) {
        let outcome = &seen.outcome;
        for (fault, name) in FAULTS.iter().enumerate() {
            if outcome.latched[fault] {
                self.count("latched", name);
            }
        }
        let set = (0..5).filter(|&cause| outcome.causes[cause]);
        let set: usize = set.map(|cause| 1 << cause).sum();
        if outcome.opened {
            self.count("opened by", CAUSES[set]);
        }
        if outcome.closing {
            let ready = if outcome.reply.letter == b'D' {
                "in D"
            } else {
                "in C"
            };
            self.count("closing", ready);
        }
    }

    /// Ages at the ends of their rules.
    fn see_ages(&mut self, seen: &Seen) {
        let (before, after, outcome) = (&seen.before, &seen.after, &seen.outcome);
        let time = seen.call.time();
        let age = |start: Option<u64>| start.and_then(|start| time.checked_sub(start));
        match age(after.sound) {
            Some(80) if before.closed && after.closed => self.count("age", "sound 80, closed"),
            Some(81) if before.closed && outcome.causes[1] => self.count("age", "sound 81, opens"),
            _ => {}
        }
        match age(before.stop) {
            Some(2_999) if after.stop.is_some() => self.count("age", "stop 2,999, runs"),
            Some(3_000) if outcome.causes[3] => self.count("age", "stop 3,000, opens"),
            _ => {}
        }
        match age(before.overrun) {
            Some(4_999) if after.overrun.is_some() => self.count("age", "over-run 4,999, runs"),
            Some(5_000) if outcome.latched[1] => self.count("age", "over-run 5,000, latches"),
            _ => {}
        }
        self.see_pause(before, age(before.opening), &outcome.conditions);
    }

    fn see_pause(&mut self, before: &State, age: Option<u64>, conditions: &Conditions) {
        let due = Conditions {
            pause_over: true,
            ..*conditions
        };
        if age.is_none() || !due.all() {
            return;
        }
        if age == before.pause.checked_sub(1) {
            self.count("age", "pause less 1, stays");
        }
        if age == Some(before.pause) {
            self.count("age", "pause, closes");
        }
        match (before.pause, age) {
            (10_000, Some(9_999)) => self.count("age", "9,999 of 10,000, stays"),
            (10_000, Some(10_000)) => self.count("age", "10,000 of 10,000, closes"),
            _ => {}
        }
    }

    /// Closing conditions that were missing alone.
    fn see_conditions(&mut self, c: &Conditions) {
        let singles = [
            ("open", c.open_before),
            ("wave", c.wave_driven),
            ("this sample", c.this_proven),
            ("previous sample", c.previous_proven),
            ("one band", c.same_band),
            ("pause", c.pause_over),
            ("grant", c.granted),
        ];
        let mut missing = singles.iter().filter(|single| !single.1);
        if let (Some((name, _)), None, true) = (missing.next(), missing.next(), c.sample) {
            self.count("closes but for", name);
        }
    }

    fn see_length(&mut self, length: usize) {
        if let Some((name, _)) = LENGTHS.iter().find(|named| named.1 == length) {
            self.count("length", name);
        }
    }

    /// Support of the greatest reading of an accepted window.
    fn see_window(&mut self, readings: &[i32]) {
        let greatest = readings.iter().max().copied().unwrap_or(0);
        match support(readings, greatest) {
            7 => self.count("greatest has", "7"),
            8 => self.count("greatest has", "8"),
            9 => self.count("greatest has", "9"),
            _ => {}
        }
    }

    /// The wanted groups and names that never occurred where they are wanted.
    pub fn missing(&self, wanted: &[Wanted]) -> Vec<String> {
        let mut missing = Vec::new();
        for (posts, group, names) in wanted {
            let never = names
                .iter()
                .filter(|name| !posts.met(self.by_kind(group, name)));
            missing.extend(never.map(|name| format!("{group}: {name} ({posts:?})")));
        }
        missing
    }

    /// A line for each group: counts of plain posts, and after a + those of digital ones.
    pub fn table(&self) -> String {
        let mut text = String::new();
        let mut present = "";
        for ((group, name), [plain, digital]) in &self.counts {
            if *group != present {
                text.push_str(&format!("\n{group:>14} |"));
                present = group;
            }
            text.push_str(&match digital {
                0 => format!(" {name}: {plain};"),
                _ => format!(" {name}: {plain} + {digital};"),
            });
        }
        text.push('\n');
        text
    }
}

/// The place that alone is true.
pub(crate) fn only(places: [bool; 3]) -> Option<usize> {
    let mut held = (0..3).filter(|&place| places[place]);
    match (held.next(), held.next()) {
        (Some(place), None) => Some(place),
        _ => None,
    }
}

/// Is the sum of the lines above what is allowed on one of them?
fn over_together(state: &State, lines: [u32; 3]) -> bool {
    let sum: u32 = lines.iter().sum();
    state
        .allowed()
        .is_some_and(|allowed| 10 * sum > 11 * allowed)
}

/// Would a call in time be refused by 1?
fn altered(state: &State) -> bool {
    refusal_of_call(state, state.last, &Event::Tick) == 1
}

/// Would a fresh controller refuse this by 4 to 8?
fn refused_anyway(event: &Event) -> bool {
    let usual = Begin {
        time: 0,
        rated: 32_000,
        pause: 0,
        ventilation: false,
        digital: false,
    };
    match begin(&usual) {
        Ok((fresh, _)) => (4..=8).contains(&refusal_of_call(&fresh, 0, event)),
        Err(_) => false,
    }
}

/// How many readings lie within 200 mV of this one.
fn support(readings: &[i32], one: i32) -> usize {
    let near = readings.iter().filter(|other| (*other - one).abs() <= 200);
    near.count()
}
