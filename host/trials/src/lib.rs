//! The proved archive held against the model, call by call.
//!
//! Each call goes to both sides. The whole reply and the whole controller must
//! agree, after every call, refused or not. The first call where they do not
//! ends its list; the list is shrunk and printed in a form that can be replayed:
//!
//! ```text
//! cd host
//! cargo test --release -p chuldariin-trials -- --nocapture                 all trials, with the tables of what occurred
//! cargo run --release -p chuldariin-trials --example replay < list.txt     one list, call by call
//! ```
//!
//! A build that is not a release build takes minutes, as the model counts the
//! supporters of every reading.
//!
//! | File | What it holds |
//! |---|---|
//! | `dice` | a seeded pseudo-random generator |
//! | `pair` | one call on both sides |
//! | `trial` | a list of calls as it grows, and the report of a difference |
//! | `shrink` | a shorter list that differs too |
//! | `tally` | how often everything that should occur did |
//! | `tally_duty` | the same of a changed duty and an over-run |
//! | `tally_faults` | the same of the order of faults, and of the one told |
//! | `tally_link` | the same of a grant, or the want of one |
//! | `tally_stops` | the same of a stop, and of an over-run of a digital post |
//! | `edges` | levels, numbers and times at the ends of their ranges |
//! | `windows` | windows of readings, clean and irregular |
//! | `author` | makes up calls by what the controller is doing |
//! | `noise` | calls to be refused, and calls of any kind |
//! | `scenes` | what happens at a charging post |
//! | `linked` | what happens at a digital post |
//! | `disturbances` | scenes of irregular windows, faults, refused calls and clocks |
//! | `orders` | scenes of faults in one call, and of faults behind others |
//! | `styles` | the lists that the scenes make, each with its seed |
//! | `cores` | work on all cores of the machine |
//! | `wild` | controllers that a host has altered |
//!
//! Units: levels in mV, currents in mA, times in ms, duty in tenths of a percent.

pub mod author;
pub mod cores;
pub mod dice;
pub mod disturbances;
pub mod edges;
pub mod linked;
pub mod noise;
pub mod orders;
pub mod pair;
pub mod scenes;
pub mod shrink;
pub mod styles;
pub mod tally;
pub mod tally_duty;
pub mod tally_faults;
pub mod tally_link;
pub mod tally_stops;
pub mod trial;
pub mod wild;
pub mod windows;
