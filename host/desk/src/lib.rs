//! The support desk's tool: replays a post's log through the proved controller, in words and as a picture.
//!
//! Every call of a log goes to the archive, and what is told and commanded is the archive's. Why it did so is
//! computed beside it by the model of document 01, from what the archive's controller held before the call. Reply and
//! controller are compared after each call, so a replay ends rather than explain what did not happen. What the post
//! recorded beside its calls goes to no controller; it is held against what was commanded.
//!
//! | File | What it holds |
//! |---|---|
//! | `source` | where a log is read from: a file, gzip, memory |
//! | `input` | the lines of a log, or what is wrong with it |
//! | `turn` | one call, replayed and explained |
//! | `lists` | the lists of a log, and how a moment in them is named |
//! | `case` | a log as it goes by: calls replayed, records held against them |
//! | `contact`, `recorded` | the contact and the told replies, held against the commands |
//! | `evaluate` | window to levels, fast |
//! | `words` | numbers, waves, faults and refusals in words |
//! | `latched` | the latched faults in their order |
//! | `causes` | what happened in a call: closings, openings with their causes, latches |
//! | `unsound` | cause (i) told apart by its levels |
//! | `running` | what happened to over-runs and stops |
//! | `grant` | the same of a digital post's grant |
//! | `table`, `paint`, `fold` | one aligned line a call, folded to the terminal |
//! | `data`, `rows` | one row a line, as CSV or JSON |
//! | `summary`, `totals` | what a whole log comes to, and in words |
//! | `replay`, `follow` | the command `replay` |
//! | `found`, `conditions`, `why` | the command `why` |
//! | `plot` | the command `plot` |
//! | `many`, `overview` | the command `summary`: many logs, one row each |
//! | `demo` | the command `demo`: a charging day |
//! | `options` | the command line |
//! | `progress` | how far a long replay is |
//! | `write` | files that are written whole or not at all |

pub mod case;
pub mod causes;
pub mod conditions;
pub mod contact;
pub mod data;
pub mod demo;
pub mod evaluate;
pub mod fold;
pub mod follow;
pub mod found;
pub mod grant;
pub mod input;
pub mod latched;
pub mod lists;
pub mod many;
pub mod options;
pub mod overview;
pub mod paint;
pub mod plot;
pub mod progress;
pub mod recorded;
pub mod replay;
pub mod rows;
pub mod running;
pub mod source;
pub mod summary;
pub mod table;
pub mod totals;
pub mod turn;
pub mod unsound;
pub mod why;
pub mod words;
pub mod write;
