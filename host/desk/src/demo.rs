//! The command `demo`: a charging day, shortened to less than a minute.

use crate::fold::width_of_stdout;
use crate::input::Log;
use crate::paint::Paint;
use crate::plot::{plot, WHOLE};
use crate::progress::Progress;
use crate::replay::{replay, Only, Show};
use crate::write::whole;
use std::error::Error;
use std::fmt::Write as _;
use std::io::Write;
use std::path::Path;

/// Time between two samples, ms.
const APART: u64 = 20;

/// A day's log as it is written.
struct Day {
    text: String,
    now: u64,
}

impl Day {
    fn comment(&mut self, words: &str) {
        let _ = writeln!(self.text, "# {words}");
    }

    /// A call, now, with these values.
    fn call(&mut self, word: &str, values: &str) {
        let line = format!("{word} {} {values}", self.now);
        let _ = writeln!(self.text, "{}", line.trim_end());
    }

    /// Samples of these levels for so long.
    fn samples(&mut self, high: i32, low: i32, long: u64) {
        for _ in 0..long / APART {
            self.now += APART;
            self.call("sample", &format!("{high} {low}"));
        }
    }

    /// A van that is ready, with a measure every half second: of one current, or of three lines.
    fn charging(&mut self, measured: &str, long: u64) {
        for _ in 0..long / 500 {
            self.samples(6_000, -12_000, 500);
            self.call("measure", measured);
        }
    }
}

/// The log of the day.
pub fn day() -> String {
    let mut day = Day {
        text: String::new(),
        now: 0,
    };
    day.comment("A charging day, shortened: a sample every 20 ms, 32 A rated, a pause of 3,000 ms, no ventilation.");
    day.call("begin", "32000 3000 no");
    first_charge(&mut day);
    withdrawn(&mut day);
    worn_plug(&mut day);
    bad_diode(&mut day);
    over_current(&mut day);
    recovery(&mut day);
    day.text
}

fn first_charge(day: &mut Day) {
    day.comment("1. First charge: no van, then plugged in (9 V), then ready (6 V, and -12 V through its diode).");
    day.samples(12_000, 12_000, 400);
    day.call("limit", "32000");
    day.samples(9_000, 9_000, 40);
    day.samples(9_000, -12_000, 400);
    day.charging("31200", 3_000);
}

fn withdrawn(day: &mut Day) {
    day.comment("2. The load manager withdraws the limit. The van does not react, so the contactor opens after 3 s.");
    day.call("limit", "0");
    day.samples(6_000, 6_000, 1_500);
    day.call("limit", "0");
    day.samples(6_000, 6_000, 2_000);
    day.comment("   It grants 16 A again. The van is ready at once; the pause is not over.");
    day.call("limit", "16000");
    day.samples(6_000, -12_000, 4_000);
}

fn worn_plug(day: &mut Day) {
    day.comment("3. A worn plug lifts the level between bands C and B: no band, but sound, and nothing opens.");
    for high in [6_900, 7_200, 7_400, 7_100] {
        day.samples(high, -12_000, 300);
    }
    day.comment("   Then it lifts it too far, for two samples in a row.");
    day.samples(7_700, -12_000, 40);
    day.samples(7_200, -12_000, 400);
    day.samples(6_400, -12_000, 4_000);
}

fn bad_diode(day: &mut Day) {
    day.comment("4. The van's diode fails: the low level leaves its band.");
    day.samples(6_000, -10_900, 40);
    day.samples(-12_000, -12_000, 1_000);
    day.comment(
        "   The driver unplugs, the desk clears the fault, the driver plugs in another van.",
    );
    day.call("clear", "");
    day.samples(12_000, 12_000, 300);
    day.call("limit", "32000");
    day.samples(9_000, 9_000, 40);
    day.samples(9_000, -12_000, 300);
    day.samples(6_000, -12_000, 2_500);
}

fn over_current(day: &mut Day) {
    day.comment("5. This van draws more than 1.1 times what is announced, on the second of three lines, for 5 s.");
    day.charging("24100 36500 21800", 5_500);
    day.samples(6_000, -12_000, 20);
    day.comment("   A clock that goes back: the call is refused, and changes nothing.");
    day.text.push_str("tick 1000\n");
    day.samples(-12_000, -12_000, 1_000);
}

fn recovery(day: &mut Day) {
    day.comment(
        "6. Recovery: the fault is cleared, the van charges at 32 A, then at 20 A, and leaves.",
    );
    day.call("clear", "");
    day.samples(9_000, 9_000, 40);
    day.samples(9_000, -12_000, 300);
    day.charging("31000 20400 18700", 4_000);
    day.call("limit", "20000");
    day.charging("19500 13100 12200", 2_000);
    day.samples(9_000, -12_000, 200);
    day.samples(12_000, -12_000, 40);
    day.samples(12_000, 12_000, 400);
}

/// Writes, replays and draws the day.
pub fn demo(folder: &str, paint: Paint, out: &mut impl Write) -> Result<(), Box<dyn Error>> {
    let text = day();
    let log = Log::of(text.as_bytes())?;
    let (file, picture) = (format!("{folder}/day.log"), format!("{folder}/day.svg"));
    std::fs::create_dir_all(Path::new(folder)).map_err(|error| format!("{folder}: {error}"))?;
    whole(&file, &text)?;
    whole(&picture, &plot(&log, "day.log", WHOLE)?)?;
    writeln!(
        out,
        "A charging day, replayed through the proved controller. Lines where something changed:\n"
    )?;
    let show = Show {
        paint,
        width: width_of_stdout(),
        ..Show::text(Only::Changes)
    };
    replay(&log, WHOLE, show, Progress::none(), out)?;
    let (name, file) = (name(), quoted(&file));
    writeln!(out, "\nlog      {file}")?;
    writeln!(out, "picture  {}", quoted(&picture))?;
    writeln!(out, "\nTo go on:")?;
    writeln!(out, "  {name} replay {file}             every call")?;
    writeln!(
        out,
        "  {name} why {file} --at 9000      why the contactor is open then"
    )?;
    writeln!(out, "  {name} plot {file} -o out.svg    the picture")?;
    Ok(())
}

/// How the command was called; the script tells it.
fn name() -> String {
    quoted(&std::env::var("CHULDARIIN_COMMAND").unwrap_or("chuldariin".to_string()))
}

/// A word as a shell takes it.
fn quoted(word: &str) -> String {
    let plain = |c: char| c.is_alphanumeric() || "/._-".contains(c);
    match !word.is_empty() && word.chars().all(plain) {
        true => word.to_string(),
        false => format!("'{}'", word.replace('\'', "'\\''")),
    }
}
