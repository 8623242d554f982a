//! Markdown tables and the numbers in them.

use crate::places::kind_name;
use crate::timing::Figures;
use second::Settings;
use std::fmt;

/// A Markdown table: the first columns are words, the last ones are numbers.
pub struct Table {
    heads: Vec<String>,
    words: usize,
    rows: Vec<Vec<String>>,
}

impl Table {
    /// A table without rows, whose first so many columns are words.
    pub fn new(heads: &[&str], words: usize) -> Table {
        Table {
            heads: heads.iter().map(|head| head.to_string()).collect(),
            words,
            rows: Vec::new(),
        }
    }

    /// Adds a row.
    pub fn row(&mut self, cells: Vec<String>) {
        assert_eq!(cells.len(), self.heads.len(), "a cell for each head");
        self.rows.push(cells);
    }
}

impl fmt::Display for Table {
    fn fmt(&self, to: &mut fmt::Formatter) -> fmt::Result {
        writeln!(to, "| {} |", self.heads.join(" | "))?;
        let side = |column| if column < self.words { "---" } else { "---:" };
        let sides: Vec<&str> = (0..self.heads.len()).map(side).collect();
        writeln!(to, "| {} |", sides.join(" | "))?;
        for row in &self.rows {
            writeln!(to, "| {} |", row.join(" | "))?;
        }
        Ok(())
    }
}

/// The figures of a call as a file keeps them.
pub fn cells(figures: &Figures) -> Vec<String> {
    let whole = [
        figures.library,
        figures.second,
        figures.sum,
        figures.greatest,
    ];
    let shares = [figures.to_second, figures.to_sum, figures.to_greatest];
    let whole = whole.map(rounded);
    whole.into_iter().chain(shares.map(ratio)).collect()
}

/// A cell as the page shows it: a whole number with commas.
pub fn shown(cell: &str) -> String {
    cell.parse().map_or(cell.into(), grouped)
}

/// Kind, k, L and n as one cell.
pub fn name(settings: &Settings) -> String {
    let Settings { k, top, n, .. } = *settings;
    let n = grouped(n as u64);
    format!("{} k = {k}, L = {top}, n = {n}", kind_name(settings.kind))
}

/// A number of at most twelve digits, with a comma before each three.
pub fn grouped(number: u64) -> String {
    let digits = number.to_string();
    let mut text = String::new();
    for (left, digit) in (0..digits.len()).rev().zip(digits.chars()) {
        text.push(digit);
        if matches!(left, 3 | 6 | 9) {
            text.push(',');
        }
    }
    text
}

/// A figure as a whole number.
pub fn rounded(figure: f64) -> String {
    (figure.round() as u64).to_string()
}

/// A ratio to two places.
pub fn ratio(ratio: f64) -> String {
    format!("{ratio:.2}")
}
