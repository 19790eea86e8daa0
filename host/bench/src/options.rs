//! What the program is asked to do.

use crate::count::Counted;

pub const USAGE: &str = "\
chuldariin-bench [--quick] [--only window|calls|cycle|growth]
chuldariin-bench --count sample-worst|sample-clean|tick|limit|measure|measure-lines|link N [--rust] [--idle|--digital]

  --quick   few short rounds, to see that it runs
  --only    one of the four parts
  --count   N such calls and nothing else after set-up, to be counted from outside
  --rust    count the same algorithm, or the model, in place of the archive
  --idle    count in a controller that is idle, in place of one that charges
  --digital count in a digital post that charges, in place of a plain one, which refuses a link call";

#[derive(Clone, Copy, PartialEq, Eq)]
pub enum Part {
    Window,
    Calls,
    Cycle,
    Growth,
}

#[derive(Default)]
pub struct Options {
    pub quick: bool,
    pub only: Option<Part>,
    pub count: Option<(Counted, usize)>,
    pub rust: bool,
    pub idle: bool,
    pub digital: bool,
}

impl Options {
    /// Reads the arguments; `None` if they make no sense.
    pub fn read(mut arguments: impl Iterator<Item = String>) -> Option<Options> {
        let mut options = Options::default();
        while let Some(argument) = arguments.next() {
            match argument.as_str() {
                "--quick" => options.quick = true,
                "--rust" => options.rust = true,
                "--idle" => options.idle = true,
                "--digital" => options.digital = true,
                "--only" => options.only = Some(part(&arguments.next()?)?),
                "--count" => {
                    let counted = Counted::named(&arguments.next()?)?;
                    let calls = arguments.next()?.parse().ok()?;
                    options.count = Some((counted, calls));
                }
                _ => return None,
            }
        }
        Some(options)
    }

    pub fn wants(&self, part: Part) -> bool {
        self.only.is_none() || self.only == Some(part)
    }
}

fn part(name: &str) -> Option<Part> {
    match name {
        "window" => Some(Part::Window),
        "calls" => Some(Part::Calls),
        "cycle" => Some(Part::Cycle),
        "growth" => Some(Part::Growth),
        _ => None,
    }
}
