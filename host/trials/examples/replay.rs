//! Replays a list of calls from standard input on both sides, from a controller
//! of zeros, and tells what both answered:
//!
//!     cargo run --release --example replay < list.txt
//!
//! It ends in failure at the first call on which the two sides differ.

use chuldariin::raw::Controller;
use chuldariin_log::text::calls;
use chuldariin_trials::pair::{Pair, Seen};
use chuldariin_trials::trial::both_sides;
use std::io::Read;

fn main() -> Result<(), String> {
    let mut text = String::new();
    let read = std::io::stdin().read_to_string(&mut text);
    read.map_err(|error| error.to_string())?;
    let mut pair = Pair::of(Controller::ZEROED);
    let calls = calls(&text).map_err(|wrong| wrong.to_string())?;
    for call in calls {
        match pair.step(&call) {
            Ok(seen) => println!("{call}\n# {}", in_words(&seen)),
            Err(difference) => {
                println!("{call}\n{}", both_sides(&difference));
                return Err("the two sides differ".to_string());
            }
        }
    }
    Ok(())
}

/// The reply, with all latched faults in their order: the first is the one told.
fn in_words(seen: &Seen) -> String {
    let reply = &seen.outcome.reply;
    if reply.letter == 0 {
        return format!("refusal {}, alone", reply.refusal);
    }
    let places = seen.after.order.unwrap_or_default().places().into_iter();
    let faults = places.filter(|fault| *fault != 0);
    let faults: Vec<String> = faults.map(|fault| fault.to_string()).collect();
    format!(
        "refusal {}, {}{}, wave {}, {}, faults [{}], closings {}",
        reply.refusal,
        char::from(reply.letter),
        reply.digit,
        reply.wave,
        if reply.closed { "closed" } else { "open" },
        faults.join(" "),
        reply.closings
    )
}
