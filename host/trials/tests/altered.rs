//! Controllers that the host has altered, each field at and beyond its range.

use chuldariin::raw;
use chuldariin::raw::Controller;
use chuldariin_log::text::calls;
use chuldariin_log::{Call, Window};
use chuldariin_trials::author::write_from;
use chuldariin_trials::cores::on_all_cores;
use chuldariin_trials::dice::Dice;
use chuldariin_trials::edges::LARGEST;
use chuldariin_trials::tally::Posts::{Digital, Each, Plain};
use chuldariin_trials::tally::{Tally, Wanted, CAUSES, FAULTS, OVER_13, REFUSALS, STATES};
use chuldariin_trials::tally_duty::ALTERED_RESTARTS;
use chuldariin_trials::tally_faults::{AGAIN, LATCHES, NO_LISTS, OPEN, TOLD};
use chuldariin_trials::tally_link::{ALTERED_IN_A, JUDGED_IN_A, OVER_11, OVER_12};
use chuldariin_trials::trial::Trial;
use chuldariin_trials::wild::{faults, verdict, wild, AGES, BYTES, CLOSINGS};

const CHARGING: &str = "\
begin 70000 32000 0 no
limit 70000 32000
sample 70010 9000 9000
sample 70020 9000 9000
sample 70030 6000 -12000
sample 70040 6000 -12000
";

/// Charging in D, with ventilation.
const CHARGING_D: &str = "\
begin 70000 80000 1000 yes
limit 70000 52000
sample 70010 3000 3000
sample 70020 3000 3000
sample 70030 3000 -12000
sample 70040 3000 -12000
";

/// Charging in a digital post.
const CHARGING_BY_LINK: &str = "\
begin 70000 32000 0 no digital
limit 70000 32000
sample 70010 9000 9000
sample 70020 9000 9000
link 70025 20000
sample 70030 6000 -12000
sample 70040 6000 -12000
";

/// The van of a digital post has left: A, and no grant.
const LEFT: &str = "\
sample 70050 12000 -12000
sample 70060 12000 -12000
link 70070 20000
";

/// The lists, in two parts, that lead to the controllers which are altered.
const LISTS: [(&str, &str); 14] = [
    ("begin 70000 32000 0 no\n", ""),
    (CHARGING, ""),
    (CHARGING_D, ""),
    (CHARGING, "measure 70050 35179\nsample 70060 6000 -12000\n"),
    (CHARGING, "limit 70050 0\nsample 70060 6000 6000\n"),
    (CHARGING, "tick 70121\nsample 70130 6000 -12000\n"),
    (CHARGING, "fault 70050 3\n"),
    (CHARGING, "sample 70050 6000 0\n"),
    ("begin 70000 32000 0 no digital\n", ""),
    (CHARGING_BY_LINK, ""),
    (
        CHARGING_BY_LINK,
        "measure 70050 22001\nsample 70060 6000 -12000\n",
    ),
    (CHARGING_BY_LINK, "link 70050 0\nsample 70060 6000 6000\n"),
    (CHARGING_BY_LINK, "tick 70121\nsample 70130 6000 -12000\n"),
    (CHARGING_BY_LINK, LEFT),
];

/// The controllers that are altered.
fn bases() -> Vec<raw::Controller> {
    let lists = LISTS.map(|(head, tail)| format!("{head}{tail}"));
    let mut bases = Vec::new();
    for list in lists {
        let mut trial = Trial::from(Controller::ZEROED);
        for call in calls(&list).expect("a list of calls") {
            check(&mut trial, call, "before any change");
        }
        bases.push(trial.lent());
    }
    bases
}

/// Runs a call; a difference ends the test with its report.
fn check(trial: &mut Trial, call: Call, name: &str) {
    if trial.run(call).is_err() {
        panic!("the two sides differ\n{}", trial.report(name));
    }
}

/// Limits and grants at the ends of their ranges, mA.
const CURRENTS: [u32; 6] = [0, 5_999, 6_000, 80_000, 80_001, u32::MAX];

/// A copy for each of these values.
fn each<T: Copy>(
    base: &raw::Controller,
    values: &[T],
    set: fn(&mut raw::Controller, T),
) -> Vec<raw::Controller> {
    let copies = values.iter().map(|&value| {
        let mut copy = *base;
        set(&mut copy, value);
        copy
    });
    copies.collect()
}

/// In the range of either kind of post, of one kind, of none.
fn waves(base: &raw::Controller) -> Vec<raw::Controller> {
    let either = [0, 1_000];
    let plain = [100, 101, 533, 850, 851, 959, 960];
    let digital = [50];
    let none = [1, 49, 51, 99, 961, 970, 999, 1_001, u32::MAX];
    let values = [&either[..], &plain, &digital, &none].concat();
    each(base, &values, |c, value| c.wave = value)
}

fn limits(base: &raw::Controller) -> Vec<raw::Controller> {
    each(base, &CURRENTS, |c, value| c.limit = value)
}

fn grants(base: &raw::Controller) -> Vec<raw::Controller> {
    each(base, &CURRENTS, |c, value| c.grant = value)
}

/// The other mark, with the wave as it is and with waves of either kind of post.
fn marks(base: &raw::Controller) -> Vec<raw::Controller> {
    each(base, &[base.wave, 0, 50, 533, 1_000], |c, value| {
        c.settings.digital = !c.settings.digital;
        c.wave = value;
    })
}

fn rated(base: &raw::Controller) -> Vec<raw::Controller> {
    let values = [0, 5_999, 6_000, 80_000, 80_001, u32::MAX];
    each(base, &values, |c, value| c.settings.rated = value)
}

fn pauses(base: &raw::Controller) -> Vec<raw::Controller> {
    let values = [0, 1, 999, 1_000, 3_000, 60_000, 60_001, u64::MAX];
    each(base, &values, |c, value| c.settings.pause = value)
}

/// Stored times stay, so that they come to lie above the last one.
fn lasts(base: &raw::Controller) -> Vec<raw::Controller> {
    let values = [
        0,
        base.last - 1,
        base.last + 1,
        LARGEST - 1,
        LARGEST,
        LARGEST + 1,
        u64::MAX,
    ];
    each(base, &values, |c, value| c.last = value)
}

/// Set and not set, at each age, and just and far above the last time.
fn moments(base: &raw::Controller) -> Vec<raw::Moment> {
    let mut times = AGES.map(|age| base.last.saturating_sub(age)).to_vec();
    times.extend([0, base.last + 1, u64::MAX]);
    let both = times
        .iter()
        .flat_map(|&time| [true, false].map(|set| raw::Moment { set, time }));
    both.collect()
}

fn sounds(base: &raw::Controller) -> Vec<raw::Controller> {
    each(base, &moments(base), |c, value| c.sound = value)
}

fn openings(base: &raw::Controller) -> Vec<raw::Controller> {
    each(base, &moments(base), |c, value| c.opening = value)
}

fn overruns(base: &raw::Controller) -> Vec<raw::Controller> {
    each(base, &moments(base), |c, value| c.overrun = value)
}

fn stops(base: &raw::Controller) -> Vec<raw::Controller> {
    each(base, &moments(base), |c, value| c.stop = value)
}

fn closings(base: &raw::Controller) -> Vec<raw::Controller> {
    each(base, &CLOSINGS, |c, value| c.closings = value)
}

/// Currents above what a measure may bring, in each place.
fn lines(base: &raw::Controller) -> Vec<raw::Controller> {
    let values = [0, 35_179, 200_000, 200_001, u32::MAX];
    [
        each(base, &values, |c, value| c.lines.line1 = value),
        each(base, &values, |c, value| c.lines.line2 = value),
        each(base, &values, |c, value| c.lines.line3 = value),
    ]
    .concat()
}

fn settled(base: &raw::Controller) -> Vec<raw::Controller> {
    each(base, &BYTES, |c, value| c.settled = value)
}

/// Every band byte with every three bits, kept and not.
fn previous(base: &raw::Controller) -> Vec<raw::Controller> {
    let mut values = Vec::new();
    for band in BYTES {
        for bits in 0..8 {
            let verdict = verdict(bits, band);
            values.extend([true, false].map(|kept| raw::Previous { kept, verdict }));
        }
    }
    each(base, &values, |c, value| c.previous = value)
}

/// Places of no order: two of one number, a gap, none that is the first, numbers beyond 5.
const NO_ORDERS: [[u8; 5]; 8] = [
    [1, 1, 0, 0, 0],
    [0, 0, 1, 3, 0],
    [0, 3, 2, 0, 0],
    [0, 0, 0, 7, 0],
    [0, 0, 0, 0, 255],
    [5, 4, 3, 2, 2],
    [6, 5, 4, 3, 2],
    [255; 5],
];

/// Every set of faults, the one with the highest number first, and places of no order.
fn all_faults(base: &raw::Controller) -> Vec<raw::Controller> {
    let mut values = NO_ORDERS.to_vec();
    values.extend((0..32).map(highest_first));
    each(base, &values, |c, value| c.faults = faults(value))
}

/// The faults of a set, each behind those with a higher number: bit 0 is fault 1, bit 4 is fault 5.
fn highest_first(set: u8) -> [u8; 5] {
    [0, 1, 2, 3, 4].map(|bit| match set >> bit & 1 {
        0 => 0,
        _ => (set >> bit).count_ones() as u8,
    })
}

/// The contactor, with the timers as they are, and the ventilation.
fn switches(base: &raw::Controller) -> Vec<raw::Controller> {
    let values = [(false, false), (false, true), (true, false), (true, true)];
    each(base, &values, |c, (closed, ventilation)| {
        c.closed = closed;
        c.settings.ventilation = ventilation;
    })
}

/// A settled with a grant, which no list leads to, and over-runs around their end.
fn grants_in_a(base: &raw::Controller) -> Vec<raw::Controller> {
    let overruns = [0, 4_999, 5_000].map(|age| base.last - age);
    let in_range = [1, 6_000, 80_000].map(|grant| overruns.map(|time| (grant, time)));
    each(base, &in_range.concat(), |c, (grant, time)| {
        c.settled = b'A';
        c.grant = grant;
        c.overrun = raw::Moment { set: true, time };
    })
}

/// Changes of one field, or of those that go together.
type Change = (&'static str, fn(&raw::Controller) -> Vec<raw::Controller>);

/// Those that refusal 1 looks at, and those that it does not.
const RANGED: [Change; 12] = [
    ("wave", waves),
    ("mark", marks),
    ("limit", limits),
    ("grant", grants),
    ("rated", rated),
    ("pause", pauses),
    ("last time", lasts),
    ("sound sample", sounds),
    ("opening", openings),
    ("over-run", overruns),
    ("stop", stops),
    ("closings", closings),
];
const FREE: [Change; 6] = [
    ("grant in A", grants_in_a),
    ("lines", lines),
    ("settled", settled),
    ("previous", previous),
    ("faults", all_faults),
    ("switches", switches),
];

/// What must have occurred on wild controllers: also every set of causes.
const WANTED: [Wanted; 26] = [
    (Each, "refusal", REFUSALS),
    (Each, "refusal", &["13"]),
    (Each, "order", &["1 over 13"]),
    (Each, "order", &OVER_13),
    (Digital, "refusal", &["11"]),
    (Plain, "refusal", &["12"]),
    (Each, "opened by", CAUSES.split_at(1).1),
    (Each, "latched", &FAULTS),
    (Plain, "restart", &ALTERED_RESTARTS),
    (Each, "closing", &["in C", "in D"]),
    (Each, "state", &STATES),
    (Each, "closes but for", &MISSING),
    (Digital, "closes but for", &["grant"]),
    (Each, "order", &ORDERS),
    (Plain, "order", &["1 over 12", "12 over 11"]),
    (Plain, "order", &OVER_12),
    (Digital, "order", &["1 over 11"]),
    (Digital, "order", &OVER_11),
    (Each, "A settled", &ALTERED_IN_A),
    (Digital, "A settled", &[JUDGED_IN_A]),
    (Each, "told", &TOLD),
    (Each, "told", &[OPEN]),
    (Each, "latches", &LATCHES),
    (Each, "told again", &AGAIN),
    (Each, "order of 2", &[NO_LISTS]),
    (Each, "order of 5", &[NO_LISTS]),
];

/// Closing conditions that may be missing alone, whatever the post.
const MISSING: [&str; 6] = [
    "open",
    "wave",
    "this sample",
    "previous sample",
    "one band",
    "pause",
];

const ORDERS: [&str; 4] = ["3 over 2", "3 over 1", "2 over 1", "1 over 4 to 8"];

/// Calls of each kind at one time.
fn calls_at(time: u64) -> [Call; 26] {
    let sample = |high, low| Call::Sample(time, Window::Halves(high, low));
    [
        Call::Tick(time),
        Call::Clear(time),
        Call::Limit(time, 32_000),
        Call::Limit(time, 0),
        Call::Limit(time, 80_001),
        Call::Limit(time, u32::MAX),
        Call::Measure(time, 0),
        Call::Measure(time, 200_000),
        Call::Measure(time, 200_001),
        Call::MeasureLines(time, [35_178, 35_179, 0]),
        Call::MeasureLines(time, [0, 0, 200_000]),
        Call::MeasureLines(time, [0, 200_001, 0]),
        Call::Link(time, 0),
        Call::Link(time, 6_000),
        Call::Link(time, 80_000),
        Call::Link(time, 80_001),
        Call::Fault(time, 4),
        Call::Fault(time, 6),
        sample(6_000, -12_000),
        sample(6_000, 0),
        sample(12_000, -12_000),
        sample(9_000, -12_000),
        sample(3_000, -12_000),
        sample(7_200, -12_000),
        sample(15_001, -12_000),
        Call::Sample(time, Vec::new().into()),
    ]
}

/// Every call on every changed copy of every base, each for itself.
fn single_calls(change: &Change, bases: &[raw::Controller]) -> Tally {
    let mut tally = Tally::default();
    for lent in bases.iter().flat_map(change.1) {
        let last = lent.last;
        let later = [0, 1, 81, 1 << 32].map(|step| last.saturating_add(step));
        let extreme = [last.wrapping_sub(1), LARGEST, LARGEST + 1, u64::MAX];
        for call in later.into_iter().chain(extreme).flat_map(calls_at) {
            let mut trial = Trial::from(lent);
            check(&mut trial, call, change.0);
            tally.add(&trial.tally);
        }
    }
    tally
}

#[test]
fn each_field_that_refusal_1_looks_at() {
    let bases = bases();
    for change in &RANGED {
        let tally = single_calls(change, &bases);
        println!(
            "{}: refused 1 {} times, accepted {}",
            change.0,
            tally.of("refusal", "1"),
            tally.of("refusal", "0")
        );
        let never = tally.missing(&[(Each, "refusal", &["0", "1"])]);
        assert!(never.is_empty(), "{}: never {}", change.0, never.join("; "));
    }
}

#[test]
fn each_field_that_it_does_not() {
    let bases = bases();
    for change in &FREE {
        let tally = single_calls(change, &bases);
        println!("{}: accepted {} times", change.0, tally.of("refusal", "0"));
        let never = tally.missing(&[(Each, "refusal", &["0"])]);
        assert!(never.is_empty(), "{}: never {}", change.0, never.join("; "));
        assert_eq!(tally.of("refusal", "1"), 0, "{}: refused by 1", change.0);
    }
}

#[test]
fn short_lists_on_wild_controllers() {
    let mut dice = Dice::new(1);
    let starts: Vec<(u64, Controller)> = (0..100_000).map(|seed| (seed, wild(&mut dice))).collect();
    let thousands: Vec<&[(u64, Controller)]> = starts.chunks(1_000).collect();
    let mut tally = Tally::default();
    for of_part in on_all_cores(&thousands, |starts| short_lists(starts)) {
        tally.add(&of_part);
    }
    println!("{}", tally.table());
    let never = tally.missing(&WANTED);
    assert!(never.is_empty(), "never occurred: {}", never.join("; "));
}

/// A list from each of these, with its seed.
fn short_lists(starts: &[(u64, Controller)]) -> Tally {
    let mut tally = Tally::default();
    for (seed, start) in starts {
        let written = write_from(*start, "wild", *seed, &mut tally, |author| {
            let count = author.dice.between(1, 4);
            author.anything(count)
        });
        if let Err(report) = written {
            panic!("the two sides differ\n{report}");
        }
    }
    tally
}
