//! Lists of calls, made up by scenes from fixed seeds.

use chuldariin_trials::author::write;
use chuldariin_trials::cores::on_all_cores;
use chuldariin_trials::styles::{list, parts, STYLES};
use chuldariin_trials::tally::Posts::{Any, Digital, Each, Plain};
use chuldariin_trials::tally::{
    Tally, Wanted, ABOVE_ON, FAULTS, LARGEST_ON, LIMITS, MOST_ON, OVER_13, REFUSALS, STARTS_ON,
};
use chuldariin_trials::tally_duty::RESTARTS;
use chuldariin_trials::tally_faults::*;
use chuldariin_trials::tally_link::*;
use chuldariin_trials::tally_stops::*;
use std::collections::BTreeSet;
use std::ops::Range;

/// The calls that every post accepts.
const WORDS: [&str; 7] = [
    "begin", "sample", "limit", "measure", "fault", "clear", "tick",
];

/// The sets of causes that a list of calls can bring about.
const REACHED: [&str; 16] = [
    "i", "ii", "iii", "iv", "v", "i ii", "i iv", "i v", "ii iii", "ii iv", "ii v", "iii iv",
    "iv v", "i ii iv", "i ii v", "ii iv v",
];

const AGES: [&str; 10] = [
    "sound 80, closed",
    "sound 81, opens",
    "stop 2,999, runs",
    "stop 3,000, opens",
    "over-run 4,999, runs",
    "over-run 5,000, latches",
    "pause less 1, stays",
    "pause, closes",
    "9,999 of 10,000, stays",
    "10,000 of 10,000, closes",
];

/// The states that a list of calls can bring about.
const REACHED_STATES: [&str; 10] = ["U0", "A1", "B1", "B2", "C1", "C2", "D1", "D2", "E0", "F0"];
const LENGTHS: [&str; 8] = ["0", "1", "255", "256", "257", "1,023", "1,024", "1,025"];

/// Closing conditions that a list of calls can leave missing alone, whatever the post.
const MISSING: [&str; 5] = [
    "open",
    "this sample",
    "previous sample",
    "one band",
    "pause",
];

/// What must have occurred when all lists are done.
const WANTED: [Wanted; 19] = [
    (Each, "refusal", REFUSALS),
    (Each, "accepted", &WORDS),
    (Each, "refused", &WORDS),
    (Each, "opened by", &REACHED),
    (Each, "latched", &FAULTS),
    (Each, "closing", &["in C", "in D"]),
    (Each, "state", &REACHED_STATES),
    (Each, "age", &AGES),
    (Plain, "restart", &RESTARTS),
    (Each, "closes but for", &MISSING),
    (Any, "length", &LENGTHS),
    (Any, "greatest has", &["7", "8", "9"]),
    (Each, "lines", &LARGEST_ON),
    (Each, "lines", &MOST_ON),
    (Each, "lines", &STARTS_ON),
    (Each, "lines", &["kept open", "kept in a stop"]),
    (Each, "lines", &["over together, none alone"]),
    (Each, "refused lines", &ABOVE_ON),
    (Each, "stop", &STOPS),
];

/// Limit and measure told separately (document 02, g): 7 is among the refusals above.
const WANTED_OF_LIMITS: [Wanted; 3] = [
    (Each, "refusal", &["13"]),
    (Each, "limit", &LIMITS),
    (Each, "order", &OVER_13),
];

/// What a link call must have brought about (document 02, e).
const WANTED_BY_LINK: [Wanted; 22] = [
    (Digital, "accepted", &["link"]),
    (Each, "refused", &["link"]),
    (Digital, "refusal", &["11"]),
    (Plain, "refusal", &["12"]),
    (Plain, "order", &["12 over 11"]),
    (Plain, "order", &OVER_12),
    (Digital, "order", &OVER_11),
    (Digital, "closes but for", &["grant"]),
    (Digital, "grant", &GRANTS),
    (Digital, "grant", &OUTLIVES),
    (Digital, "grant", &CLOSES_AFTER),
    (Digital, "A settled", &IN_A),
    (Digital, "stop", &GRANT_STOPS),
    (Digital, "link call", &LINK_CALLS),
    (Digital, "over-run", &AT_BOUND),
    (Digital, "over-run", &[NO_READING]),
    (Digital, "over-run", &ONE_ABOVE),
    (Digital, "over-run", &LOWER),
    (Digital, "over-run", &LOWER_LATE),
    (Digital, "over-run", &LOWER_LATCHES),
    (Digital, "over-run", &HIGHER),
    (Digital, "over-run", &TOO_LOW),
];

/// What must have become of the order of faults (document 02, f).
const WANTED_OF_FAULTS: [Wanted; 9] = [
    (Each, ORDERS[0].0, ORDERS[0].1),
    (Each, ORDERS[1].0, ORDERS[1].1),
    (Each, ORDERS[2].0, ORDERS[2].1),
    (Each, ORDERS[3].0, ORDERS[3].1),
    (Each, ORDERS[4].0, ORDERS[4].1),
    (Each, "latches", &LATCHES),
    (Each, "told again", &AGAIN),
    (Each, "after a clear", &AFRESH),
    (Each, "told", &TOLD),
];

#[test]
fn both_sides_agree_on_every_list() {
    let mut tally = Tally::default();
    let mut reports = Vec::new();
    for (of_part, report) in on_all_cores(&parts(), |(style, seeds)| part(*style, seeds.clone())) {
        tally.add(&of_part);
        reports.extend(report);
    }
    // Three differences are enough to read.
    reports.truncate(3);
    println!("{}", tally.table());
    assert!(
        reports.is_empty(),
        "the two sides differ\n{}",
        reports.join("\n")
    );
    let mut never = tally.missing(&WANTED);
    never.extend(tally.missing(&WANTED_BY_LINK));
    never.extend(tally.missing(&WANTED_OF_FAULTS));
    never.extend(tally.missing(&WANTED_OF_LIMITS));
    assert!(never.is_empty(), "never occurred: {}", never.join("; "));
    assert_eq!(tally.of("told", OPEN), 0, "left open which fault is told");
    no_other_orders(&tally);
}

/// Some lists of a style, up to the first difference: what occurred, and the report of it.
fn part(style: usize, seeds: Range<u64>) -> (Tally, Option<String>) {
    let (name, _, scenes) = STYLES[style];
    let mut tally = Tally::default();
    let mut lists = seeds;
    let written =
        lists.try_for_each(|seed| write(name, seed, &mut tally, |author| list(author, scenes)));
    (tally, written.err())
}

/// How many orders were reached, and that a list can reach all of them.
fn no_other_orders(tally: &Tally) {
    for (group, names) in ORDERS {
        let counts = names.iter().map(|name| tally.of(group, name));
        let reached = counts.clone().filter(|count| *count > 0).count();
        let (of, times) = (names.len(), counts.sum::<u64>());
        println!("{group}: {reached} of {of}, {times} times");
        assert_eq!(tally.of(group, NO_LISTS), 0, "{group}");
    }
}

/// What one call can latch where no fault is, and up to three fault calls behind it.
#[test]
fn the_orders_that_a_list_can_reach_are_these() {
    let alone = ["1", "2", "3", "4", "5", "1 2", "3 2", "4 2", "5 2"];
    let mut reached = BTreeSet::from(alone.map(String::from));
    for _ in 0..3 {
        let longer: Vec<String> = reached.iter().flat_map(|order| behind(order)).collect();
        reached.extend(longer);
    }
    let listed = ORDERS.iter().flat_map(|(_, names)| names.iter());
    assert_eq!(reached, listed.map(|name| name.to_string()).collect());
}

/// The orders with one fault call's fault behind this one.
fn behind(order: &str) -> Vec<String> {
    let others = ["3", "4", "5"].into_iter();
    let others = others.filter(|fault| !order.contains(fault));
    others.map(|fault| format!("{order} {fault}")).collect()
}
