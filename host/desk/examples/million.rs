//! Writes a long log to standard output, to measure a replay with:
//!
//!     cargo run --release --manifest-path host/Cargo.toml -p chuldariin-desk --example million > million.log
//!
//! A million calls; a number behind `million` asks for so many.

use std::io::{self, BufWriter, Write};

/// Time between two calls, ms.
const APART: u64 = 10;

fn main() -> io::Result<()> {
    let calls = std::env::args()
        .nth(1)
        .map_or(Ok(1_000_000), |word| word.parse::<u64>());
    let calls = calls.map_err(|error| io::Error::new(io::ErrorKind::InvalidInput, error))?;
    let mut out = BufWriter::new(io::stdout().lock());
    writeln!(out, "begin 0 32000 3000 no")?;
    for call in 1..calls {
        let time = call * APART;
        // A van comes every 50 s: no van, plugged in, then ready. A measure and a limit once in a second.
        match (call % 100, call % 5_000) {
            (0, _) => writeln!(out, "measure {time} {}", 14_000 + call % 2_000)?,
            (50, _) => writeln!(out, "limit {time} {}", 16_000 + call % 16_000)?,
            (_, 0..200) => writeln!(out, "sample {time} 12000 12000")?,
            (_, 200..202) => writeln!(out, "sample {time} 9000 9000")?,
            (_, 202..400) => writeln!(out, "sample {time} 9000 -12000")?,
            (_, 3_001..3_003) => writeln!(out, "sample {time} 7600 -12000")?,
            _ => writeln!(out, "sample {time} {} -12000", 5_800 + call % 400)?,
        }
    }
    out.flush()
}
