//! The window search: the archive against plain Rust.

use crate::archive::place;
use crate::check::all_agree_on;
use crate::drive::{charging, DRIVEN_TO};
use crate::readings::{self, Order};
use crate::table::{commas, ns, spread, Table};
use crate::timing::{contest, less, median, ranking, ratio, Contestant, Effort, Times};
use crate::window::{copies, sorting, without_skip, Search};
use std::hint::black_box;

/// The same algorithm at its fastest and at its slowest place in memory.
pub struct Rust {
    pub fastest: Times,
    pub slowest: Times,
}

/// A window to be timed.
struct Case {
    name: &'static str,
    window: Vec<i32>,
}

/// Times of all contestants on one window.
struct Timed {
    /// The archive's whole sample call.
    sample: Times,
    /// The same less a tick: the archive's search.
    search: Times,
    rust: Rust,
    /// With differences of 64 bits, at its fastest place.
    wide: Times,
    /// With the archive's tick after it, at its fastest place.
    then_tick: Times,
    without_skip: Times,
    sorting: Times,
    model: Times,
}

/// The archive's whole sample call.
fn sample(window: &[i32]) -> Contestant<'_> {
    let mut archive = charging().archive;
    Contestant::new(move || {
        black_box(archive.sample(DRIVEN_TO, black_box(window)));
    })
}

fn tick<'a>() -> Contestant<'a> {
    let mut archive = charging().archive;
    Contestant::new(move || {
        black_box(archive.tick(black_box(DRIVEN_TO)));
    })
}

/// A search in plain Rust.
fn search(levels: Search, window: &[i32]) -> Contestant<'_> {
    Contestant::new(move || {
        let _ = black_box(levels(black_box(window)));
    })
}

/// The same algorithm at four places in memory.
fn places<const WIDE: bool>(window: &[i32]) -> impl Iterator<Item = Contestant<'_>> {
    copies::<WIDE>()
        .into_iter()
        .map(move |copy| search(copy, window))
}

/// Takes the times of the four places.
fn rust(times: &[Times]) -> Rust {
    let order = ranking(&times.iter().collect::<Vec<_>>());
    Rust {
        fastest: times[order[0]].clone(),
        slowest: times[order[order.len() - 1]].clone(),
    }
}

/// The same, each time with the archive's tick after it: nearly a whole sample call.
fn places_then_tick(window: &[i32]) -> impl Iterator<Item = Contestant<'_>> {
    copies::<false>().into_iter().map(move |copy| {
        let mut archive = charging().archive;
        Contestant::new(move || {
            let _ = black_box(copy(black_box(window)));
            black_box(archive.tick(black_box(DRIVEN_TO)));
        })
    })
}

fn time(window: &[i32], effort: Effort) -> Timed {
    all_agree_on(window);
    let mut contestants = vec![
        sample(window),
        tick(),
        search(without_skip, window),
        search(sorting, window),
        search(chuldariin_model::levels, window),
    ];
    contestants.extend(places::<false>(window));
    contestants.extend(places::<true>(window));
    contestants.extend(places_then_tick(window));
    let times = contest(contestants, effort);
    Timed {
        sample: times[0].clone(),
        search: less(&times[0], &times[1]),
        without_skip: times[2].clone(),
        sorting: times[3].clone(),
        model: times[4].clone(),
        rust: rust(&times[5..9]),
        wide: rust(&times[9..13]).fastest,
        then_tick: rust(&times[13..]).fastest,
    }
}

/// The archive's sample and the same algorithm, on some windows in one contest.
pub fn against_rust(windows: &[Vec<i32>], effort: Effort) -> Vec<(Times, Rust)> {
    let mut contestants = Vec::new();
    for window in windows {
        all_agree_on(window);
        contestants.push(sample(window));
        contestants.extend(places::<false>(window));
    }
    contest(contestants, effort)
        .chunks(5)
        .map(|times| (times[0].clone(), rust(&times[1..])))
        .collect()
}

/// The order of an unsupported window that takes the archive longest, with a table of all orders.
pub fn worst_order(effort: Effort) -> (Order, Table) {
    let few_rounds = Effort {
        rounds: effort.rounds.min(21),
        ..effort
    };
    let windows = Order::ALL.map(|order| readings::unsupported(order, 1_024));
    let times = against_rust(&windows, few_rounds);
    let mut table = Table::new(&["order", "archive ns", "rust ns", "archive / rust"]);
    for (order, (archive, rust)) in Order::ALL.iter().zip(&times) {
        table.row(vec![
            order.name().to_string(),
            ns(median(archive)),
            ns(median(&rust.fastest)),
            spread(&ratio(archive, &rust.fastest)),
        ]);
    }
    let archive: Vec<&Times> = times.iter().map(|(archive, _)| archive).collect();
    let slowest = ranking(&archive)[archive.len() - 1];
    (Order::ALL[slowest], table)
}

fn cases(worst: Order) -> Vec<Case> {
    let mut cases = Vec::new();
    for length in [256, 1_024] {
        let windows = [
            ("exact", readings::charging(0, length)),
            ("clean", readings::charging(20, length)),
            ("noisy", readings::charging(150, length)),
            ("wide", readings::wide(length)),
            ("few", readings::few(length)),
            ("worst", readings::unsupported(worst, length)),
        ];
        cases.extend(windows.map(|(name, window)| Case { name, window }));
    }
    cases
}

const HEAD: &str = "\
1. Window search
   exact: +6 V and -12 V; clean: with 20 mV of noise; noisy: 150 mV; wide: noise over the whole range;
   few: 16 readings supported; worst: none supported, in the slowest order of those below.
   search: the archive's sample less its tick.
   rust: the same algorithm, at the fastest of four places in memory; slow place: at the slowest;
   64 bits: with differences of 64 bits, as the archive has them, at the fastest;
   rust + tick: with the archive's tick after it, at the fastest: nearly a whole sample call.";

pub fn run(effort: Effort) {
    println!("{HEAD}");
    println!(
        "   The archive's sample starts {} bytes after a multiple of 64.\n",
        place()
    );
    let (order, orders) = worst_order(effort);
    println!(
        "Orders of 1,024 readings without support (worst: {})",
        order.name()
    );
    orders.print();
    let timed: Vec<(Case, Timed)> = cases(order)
        .into_iter()
        .map(|case| {
            let timed = time(&case.window, effort);
            (case, timed)
        })
        .collect();
    print_times(&timed);
    print_ratios(&timed);
    print_others(&timed);
}

fn name(case: &Case) -> String {
    format!("{} {}", case.name, commas(case.window.len()))
}

fn print_times(timed: &[(Case, Timed)]) {
    println!("Median ns of a call");
    let mut table = Table::new(&[
        "window",
        "sample",
        "search",
        "rust",
        "slow place",
        "64 bits",
        "rust + tick",
        "no skip",
        "sort",
        "full count",
    ]);
    for (case, times) in timed {
        let all = [
            &times.sample,
            &times.search,
            &times.rust.fastest,
            &times.rust.slowest,
            &times.wide,
            &times.then_tick,
            &times.without_skip,
            &times.sorting,
            &times.model,
        ];
        let mut row = vec![name(case)];
        row.extend(all.map(|times| ns(median(times))));
        table.row(row);
    }
    table.print();
}

fn print_ratios(timed: &[(Case, Timed)]) {
    println!("Archive against the same algorithm");
    let mut table = Table::new(&[
        "window",
        "sample / (rust + tick)",
        "search / rust",
        "sample / rust",
    ]);
    for (case, times) in timed {
        let ratios = [
            ratio(&times.sample, &times.then_tick),
            ratio(&times.search, &times.rust.fastest),
            ratio(&times.sample, &times.rust.fastest),
        ];
        let mut row = vec![name(case)];
        row.extend(ratios.map(|ratio| spread(&ratio)));
        table.row(row);
    }
    table.print();
}

fn print_others(timed: &[(Case, Timed)]) {
    println!("Archive's search against the others");
    let mut table = Table::new(&[
        "window",
        "/ slow place",
        "/ 64 bits",
        "/ no skip",
        "/ sort",
        "/ full count",
    ]);
    for (case, times) in timed {
        let others = [
            &times.rust.slowest,
            &times.wide,
            &times.without_skip,
            &times.sorting,
            &times.model,
        ];
        let mut row = vec![name(case)];
        row.extend(others.map(|other| spread(&ratio(&times.search, other))));
        table.row(row);
    }
    table.print();
}
