//! Speed of the proved archive beside plain Rust, measured side by side in one run.

mod archive;
mod calls;
mod check;
mod count;
mod cycle;
mod drive;
mod growth;
mod options;
mod readings;
mod search;
mod table;
mod timing;
mod window;

use options::{Options, Part, USAGE};
use std::process::ExitCode;
use timing::Effort;

/// Short parts and many rounds, so that a change of the machine's speed falls on all alike.
const FULL: Effort = Effort {
    rounds: 161,
    part: 200_000.0,
};

const QUICK: Effort = Effort {
    rounds: 5,
    part: 50_000.0,
};

fn main() -> ExitCode {
    if std::env::args().any(|argument| argument == "--help") {
        println!("{USAGE}");
        return ExitCode::SUCCESS;
    }
    let Some(options) = Options::read(std::env::args().skip(1)) else {
        eprintln!("{USAGE}");
        return ExitCode::FAILURE;
    };
    match options.count {
        Some((counted, calls)) => count::run(counted, calls, &options),
        None => measure(&options),
    }
    ExitCode::SUCCESS
}

fn measure(options: &Options) {
    let effort = if options.quick { QUICK } else { FULL };
    println!(
        "The proved archive beside plain Rust, round by round in one run: medians of {} rounds; of the ratios in the rounds the middle (lower..upper quartile).",
        effort.rounds
    );
    if cfg!(debug_assertions) {
        println!("This is no release build: its ratios mean nothing.");
    }
    println!();
    let parts: [(Part, fn(Effort)); 4] = [
        (Part::Window, search::run),
        (Part::Calls, calls::run),
        (Part::Cycle, cycle::run),
        (Part::Growth, growth::run),
    ];
    for (part, run) in parts {
        if options.wants(part) {
            run(effort);
        }
    }
}
