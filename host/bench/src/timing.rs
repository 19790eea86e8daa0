//! Rounds of all contestants in turn, and their medians.

use std::time::Instant;

/// How long to measure.
#[derive(Clone, Copy)]
pub struct Effort {
    pub rounds: usize,
    /// The least length of one contestant's part of a round, ns.
    pub part: f64,
}

/// ns per call, one number for each round.
pub type Times = Vec<f64>;

/// One contestant: it makes as many calls as it is told.
pub struct Contestant<'a> {
    run: Box<dyn FnMut(usize) + 'a>,
}

impl<'a> Contestant<'a> {
    /// Each turn of the closure is one call.
    pub fn new(mut call: impl FnMut() + 'a) -> Contestant<'a> {
        let run = move |calls| {
            for _ in 0..calls {
                call();
            }
        };
        Contestant { run: Box::new(run) }
    }

    /// Total time of so many calls, ns.
    fn time(&mut self, calls: usize) -> f64 {
        let start = Instant::now();
        (self.run)(calls);
        start.elapsed().as_nanos() as f64
    }

    /// How many calls fill a part of a round.
    fn calls_for(&mut self, part: f64) -> usize {
        let mut calls = 1;
        while self.time(calls) < part {
            calls *= 2;
        }
        calls
    }
}

/// Times the contestants round by round. Each round starts with another of them.
pub fn contest(mut contestants: Vec<Contestant>, effort: Effort) -> Vec<Times> {
    let count = contestants.len();
    let calls: Vec<usize> = contestants
        .iter_mut()
        .map(|c| c.calls_for(effort.part))
        .collect();
    let mut times = vec![Times::new(); count];
    for round in 0..effort.rounds {
        for turn in 0..count {
            let who = (round + turn) % count;
            let total = contestants[who].time(calls[who]);
            times[who].push(total / calls[who] as f64);
        }
    }
    times
}

/// The number at a part of the way through the sorted numbers.
fn at_part(numbers: &[f64], part: f64) -> f64 {
    let mut sorted = numbers.to_vec();
    sorted.sort_by(f64::total_cmp);
    sorted[((sorted.len() - 1) as f64 * part).round() as usize]
}

pub fn median(times: &[f64]) -> f64 {
    at_part(times, 0.5)
}

/// Quartiles of the ratios in the rounds.
///
/// The machine's speed may change from round to round, and by much. Both sides of a ratio are of one
/// round, so that it stands; the medians of the two sides may be of different speeds.
pub struct Ratio {
    pub middle: f64,
    pub lower: f64,
    pub upper: f64,
}

pub fn ratio(times: &[f64], others: &[f64]) -> Ratio {
    let ratios: Vec<f64> = times.iter().zip(others).map(|(t, o)| t / o).collect();
    Ratio {
        middle: median(&ratios),
        lower: at_part(&ratios, 0.25),
        upper: at_part(&ratios, 0.75),
    }
}

/// Places of the contestants in order, the fastest first, by their shares of the rounds.
pub fn ranking(contestants: &[&Times]) -> Vec<usize> {
    let rounds = contestants[0].len();
    let sums: Times = (0..rounds)
        .map(|round| contestants.iter().map(|times| times[round]).sum())
        .collect();
    let share = |who: &usize| ratio(contestants[*who], &sums).middle;
    let mut order: Vec<usize> = (0..contestants.len()).collect();
    order.sort_by(|one, other| share(one).total_cmp(&share(other)));
    order
}

/// What is left in each round after other times are taken off.
pub fn less(times: &[f64], others: &[f64]) -> Times {
    times.iter().zip(others).map(|(t, o)| t - o).collect()
}
