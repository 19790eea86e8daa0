//! The explanations, held against the archive over the lists of the trials.
//!
//! Each opening is put to the archive again with some of its explained causes taken away: the contactor opens as long as one
//! is left, and stays closed with the last of them gone. So the causes are those that opened it, and no others. In the same way
//! a sample that does not close is put again with some of its missing conditions granted: it closes once all of them are.
//! The faults are shown in the order that the archive's controller keeps, and the first is the one that it tells.

use chuldariin::raw;
use chuldariin_desk::causes::{because, notes, Kind};
use chuldariin_desk::latched::Latched;
use chuldariin_desk::turn::{Post, Turn};
use chuldariin_log::ask::ask;
use chuldariin_log::{Call, Room};
use chuldariin_trials::author::Author;
use chuldariin_trials::cores::on_all_cores;
use chuldariin_trials::dice::Dice;
use chuldariin_trials::styles::{list, parts, STYLES};
use chuldariin_trials::trial::Trial;
use std::collections::{BTreeMap, BTreeSet};
use std::ops::Range;

/// How often each set of causes opened, and each set of missing conditions kept open; and which orders faults were latched in.
#[derive(Default)]
struct Counts {
    closings: u64,
    openings: BTreeMap<Vec<usize>, u64>,
    missing: BTreeMap<Vec<usize>, u64>,
    orders: BTreeSet<Vec<u8>>,
}

impl Counts {
    fn add(&mut self, other: Counts) {
        self.closings += other.closings;
        for (causes, times) in other.openings {
            *self.openings.entry(causes).or_default() += times;
        }
        for (conditions, times) in other.missing {
            *self.missing.entry(conditions).or_default() += times;
        }
        self.orders.extend(other.orders);
    }
}

#[test]
fn every_opening_has_its_causes_and_every_closing_misses_nothing() {
    let mut counts = Counts::default();
    let part = |(style, seeds): &(usize, Range<u64>)| {
        let mut counts = Counts::default();
        for seed in seeds.clone() {
            replay(&calls(*style, seed), &mut counts);
        }
        counts
    };
    for of_part in on_all_cores(&parts(), part) {
        counts.add(of_part);
    }
    println!("closings {}", counts.closings);
    println!("openings by causes {:?}", counts.openings);
    println!("open for want of {:?}", counts.missing);
    println!("faults latched in the orders {:?}", counts.orders);
    assert!(counts.closings > 5_000);
    // Every order that there can be: 1, 2, both or neither, then any of 3 to 5; or one of these, a 2 of its call, then any of the others.
    assert_eq!(counts.orders.len(), 4 * 16 + 3 * 5);
    // The sets that the lists are known to reach, and each condition that can be missing alone.
    assert_eq!(counts.openings.len(), 16);
    for alone in [vec![PREVIOUS], vec![BAND], vec![PAUSE], vec![GRANT]] {
        assert!(counts.missing.contains_key(&alone), "{alone:?}");
    }
}

/// The calls of a list of the trials.
fn calls(style: usize, seed: u64) -> Vec<Call> {
    let mut author = Author {
        dice: Dice::new(seed),
        trial: Trial::from(raw::Controller::ZEROED),
    };
    let played = list(&mut author, STYLES[style].2);
    assert!(played.is_ok(), "the archive and the model differ");
    author.trial.calls().to_vec()
}

fn replay(calls: &[Call], counts: &mut Counts) {
    let mut post = Post::default();
    let mut lent = raw::Controller::ZEROED;
    let mut was_closed = false;
    for (place, call) in calls.iter().enumerate() {
        let before = lent;
        let reply = ask(&mut lent, call, &mut Room::default());
        let turn = post.turn(place + 1, call).expect("the explanation holds");
        let begins = matches!(call, Call::Begin(_));
        assert_eq!(turn.reply, reply);
        counts.orders.insert(order(&turn, &lent));
        if !begins {
            let previous = turn.previous.ok().map(|sample| sample.verdict);
            assert_eq!(previous, turn.before.previous);
        }
        if reply.refusal == 0 && !begins {
            assert_eq!(turn.outcome.opened, was_closed && !reply.closed);
            assert_eq!(turn.outcome.closing, !was_closed && reply.closed);
            judged(&turn, before, counts);
        } else {
            assert!(!turn.outcome.opened && !turn.outcome.closing);
        }
        if reply.refusal == 0 {
            was_closed = reply.closed;
        }
    }
}

/// The latched faults by their places in the archive's controller, as they are shown.
fn order(turn: &Turn, lent: &raw::Controller) -> Vec<u8> {
    let place = |fault: &u8| lent.faults.each()[usize::from(*fault) - 1];
    let mut kept: Vec<u8> = (1..=5).filter(|fault| place(fault) != 0).collect();
    kept.sort_by_key(place);
    let shown: Vec<u8> = Latched::of(&turn.after).numbers().collect();
    assert_eq!(shown, kept);
    // A refused begin tells nothing of the controller.
    if turn.reply.letter != 0 {
        assert_eq!(turn.reply.fault, kept.first().copied().unwrap_or(0));
    }
    kept
}

fn judged(turn: &Turn, before: raw::Controller, counts: &mut Counts) {
    let causes: Vec<usize> = (0..5).filter(|&cause| turn.outcome.causes[cause]).collect();
    if turn.outcome.opened {
        causes_alone_open(turn, before, &causes);
        named_in_words(turn, &causes);
        *counts.openings.entry(causes).or_default() += 1;
    } else {
        assert!(causes.is_empty());
    }
    if turn.outcome.closing {
        assert!(turn.outcome.conditions.all());
        counts.closings += 1;
    } else if !before.closed && turn.sample.is_some() {
        let missing = missing(turn);
        assert!(!missing.is_empty());
        conditions_alone_close(turn, before, &missing);
        *counts.missing.entry(missing).or_default() += 1;
    }
}

/// Every set of these numbers.
fn subsets(of: &[usize]) -> Vec<Vec<usize>> {
    let member = |set: usize| {
        let chosen = of
            .iter()
            .enumerate()
            .filter(move |(place, _)| set >> place & 1 == 1);
        chosen.map(|(_, number)| *number).collect()
    };
    (0..1 << of.len()).map(member).collect()
}

/// Opens as long as one cause is left.
fn causes_alone_open(turn: &Turn, before: raw::Controller, causes: &[usize]) {
    for taken in subsets(causes) {
        let (mut lent, mut call) = (before, turn.call.clone());
        for cause in &taken {
            take_away(*cause, &mut lent, &mut call);
        }
        let reply = ask(&mut lent, &call, &mut Room::default());
        assert_eq!(reply.refusal, 0);
        assert_eq!(
            reply.closed,
            taken.len() == causes.len(),
            "{taken:?} of {causes:?}"
        );
    }
}

/// Changes controller and call so that a cause does not hold, and no other comes or goes.
fn take_away(cause: usize, lent: &mut raw::Controller, call: &mut Call) {
    let time = call.time();
    match cause {
        0 => lent.previous.verdict.sound = true,
        1 => {
            lent.last = time;
            lent.sound = raw::Moment { set: true, time };
        }
        2 => settle_a(lent),
        3 => lent.stop.set = false,
        _ => {
            lent.faults = raw::Controller::ZEROED.faults;
            lent.previous.verdict.diodebad = false;
            lent.overrun.set = false;
            // A latch unsettles; without it a settled D would be a cause.
            settle_a(lent);
            if let Call::Fault(..) = call {
                *call = Call::Tick(time);
            }
        }
    }
}

/// State A, and no pair that would settle another: the wave is steady, as it is in U, and in D without ventilation.
fn settle_a(lent: &mut raw::Controller) {
    lent.settled = b'A';
    lent.previous.verdict.band = 0;
}

/// The note of an opening has each cause, by its number, and its figures.
fn named_in_words(turn: &Turn, causes: &[usize]) {
    let notes = notes(turn);
    let opened = notes.iter().find(|note| note.kind == Kind::Opened);
    let words = &opened.expect("an opening is told").words;
    for (cause, numeral) in ["(i)", "(ii)", "(iii)", "(iv)", "(v)"].iter().enumerate() {
        assert_eq!(words.contains(numeral), causes.contains(&cause), "{words}");
    }
    for cause in causes {
        let reason = because(turn, *cause);
        let figure = match cause {
            3 if turn.after.digital => " mA is below 6,000",
            0 | 3 => "at ",
            1 => " ms since",
            2 => "state D",
            _ => "fault: ",
        };
        assert!(
            words.contains(&reason) && reason.contains(figure),
            "{words}"
        );
    }
}

const WAVE: usize = 0;
const THIS: usize = 1;
const PREVIOUS: usize = 2;
const BAND: usize = 3;
const PAUSE: usize = 4;
const GRANT: usize = 5;

/// The conditions of an open contactor and a sample that do not hold.
fn missing(turn: &Turn) -> Vec<usize> {
    let c = &turn.outcome.conditions;
    assert!(c.open_before && c.not_opened && c.sample);
    let held = [
        c.wave_driven,
        c.this_proven,
        c.previous_proven,
        c.same_band,
        c.pause_over,
        c.granted,
    ];
    (0..6).filter(|&condition| !held[condition]).collect()
}

/// Closes once every missing condition is granted.
fn conditions_alone_close(turn: &Turn, before: raw::Controller, missing: &[usize]) {
    // What this sample shows can't be granted: then nothing closes.
    let grants = match missing.contains(&THIS) {
        true => vec![vec![PREVIOUS, BAND, PAUSE, GRANT]],
        false => subsets(missing),
    };
    // A proven sample was taken under a driven wave, and none ends the wave of an open contactor.
    assert!(missing.contains(&THIS) || !missing.contains(&WAVE));
    for granted in grants {
        let mut lent = before;
        for condition in &granted {
            grant(*condition, turn, &mut lent);
        }
        let reply = ask(&mut lent, turn.call, &mut Room::default());
        assert_eq!(reply.refusal, 0);
        assert_eq!(
            reply.closed,
            granted == missing,
            "{granted:?} of {missing:?}"
        );
    }
}

/// Changes the controller so that a condition holds.
fn grant(condition: usize, turn: &Turn, lent: &mut raw::Controller) {
    let previous = &mut lent.previous;
    match condition {
        PREVIOUS => {
            if !previous.kept {
                previous.verdict = raw::Controller::ZEROED.previous.verdict;
            }
            previous.kept = true;
            previous.verdict.proven = true;
        }
        BAND => {
            let band = turn.sample.and_then(|sample| sample.verdict.band);
            previous.verdict.band = band.map_or(0, |band| b'A' + band as u8);
        }
        PAUSE => lent.opening.set = false,
        GRANT => lent.grant = 6_000,
        _ => unreachable!("neither the wave nor what this sample shows is granted"),
    }
}
