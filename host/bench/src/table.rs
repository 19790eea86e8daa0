//! Aligned plain-text tables.

use crate::timing::Ratio;

pub struct Table {
    rows: Vec<Vec<String>>,
}

impl Table {
    pub fn new(head: &[&str]) -> Table {
        let head = head.iter().map(|name| name.to_string()).collect();
        Table { rows: vec![head] }
    }

    pub fn row(&mut self, cells: Vec<String>) {
        self.rows.push(cells);
    }

    /// The first column to the left, the others to the right.
    pub fn print(&self) {
        let columns = self.rows[0].len();
        let widths: Vec<usize> = (0..columns).map(|column| self.width(column)).collect();
        for row in &self.rows {
            let mut line = format!("{:<1$}", row[0], widths[0]);
            for (cell, width) in row.iter().zip(&widths).skip(1) {
                line += &format!("  {cell:>width$}");
            }
            println!("{}", line.trim_end());
        }
        println!();
    }

    fn width(&self, column: usize) -> usize {
        self.rows
            .iter()
            .map(|row| row[column].chars().count())
            .max()
            .unwrap_or(0)
    }
}

/// A whole number with commas.
pub fn commas(number: usize) -> String {
    let digits = number.to_string();
    let mut text = String::new();
    for (i, digit) in digits.chars().enumerate() {
        if i > 0 && (digits.len() - i).is_multiple_of(3) {
            text.push(',');
        }
        text.push(digit);
    }
    text
}

/// A time in ns.
pub fn ns(time: f64) -> String {
    if time < 1_000.0 {
        format!("{time:.1}")
    } else {
        commas(time.round() as usize)
    }
}

/// The middle ratio, with the lower and the upper quartile.
pub fn spread(ratio: &Ratio) -> String {
    format!(
        "{:.3} ({:.3}..{:.3})",
        ratio.middle, ratio.lower, ratio.upper
    )
}
