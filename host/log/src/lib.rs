//! Logs of a post's calls: as text and back, and put to the proved archive.
//!
//! | File | What it holds |
//! |---|---|
//! | `call` | a call with its arguments |
//! | `record` | what the post recorded beside its calls |
//! | `wall` | the wall's clock: dates |
//! | `window` | the readings of a sample |
//! | `text` | a log as text, one call a line |
//! | `reader` | the lines of a log, one by one as they are read |
//! | `wrong` | what is wrong with a log, line by line, and what is expected |
//! | `ask` | a call put to the archive |
//! | `answer` | a call put to the model |
//! | `meaning` | what the archive's controller means, as the model's state |
//! | `unlike` | where the two part |

pub mod answer;
pub mod ask;
pub mod call;
pub mod meaning;
pub mod reader;
pub mod record;
pub mod text;
pub mod unlike;
pub mod wall;
pub mod window;
pub mod wrong;

pub use call::Call;
pub use reader::Reader;
pub use record::{Record, Told};
pub use text::{Entry, Line};
pub use wall::Wall;
pub use window::{Room, Window};
pub use wrong::{Wrong, WrongLines};
