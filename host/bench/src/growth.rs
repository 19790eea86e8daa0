//! How the time of a sample grows with the window.

use crate::readings;
use crate::search::{against_rust, worst_order};
use crate::table::{commas, ns, spread, Table};
use crate::timing::{median, ratio, Effort};

const LENGTHS: [usize; 7] = [256, 384, 512, 640, 768, 896, 1_024];

/// One table. The unit is what the archive's time is divided by: readings or comparisons.
fn print(
    unit: &str,
    steps: fn(usize) -> usize,
    window: impl Fn(usize) -> Vec<i32>,
    effort: Effort,
) {
    let per_unit = format!("archive ns per {unit}");
    let mut table = Table::new(&[
        "readings",
        "archive ns",
        "rust ns",
        &per_unit,
        "archive / rust",
    ]);
    let windows = LENGTHS.map(window);
    let times = against_rust(&windows, effort);
    for (length, (archive, rust)) in LENGTHS.into_iter().zip(&times) {
        let middle = median(archive);
        table.row(vec![
            commas(length),
            ns(middle),
            ns(median(&rust.fastest)),
            format!("{:.3}", middle / steps(length) as f64),
            spread(&ratio(archive, &rust.fastest)),
        ]);
    }
    table.print();
}

pub fn run(effort: Effort) {
    let (order, _) = worst_order(effort);
    println!("4. Growth of a whole sample call with the window\n");
    println!("Clean window");
    print("reading", |n| n, |n| readings::charging(20, n), effort);
    println!("Worst window ({})", order.name());
    print(
        "comparison",
        |n| n * n,
        |n| readings::unsupported(order, n),
        effort,
    );
}
