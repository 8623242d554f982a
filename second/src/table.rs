//! Rows of the tables in docs/RULES.md.

use crate::Settings;

/// The settings, and these numbers.
pub fn row(settings: &Settings, numbers: &[u64]) -> String {
    named(&name(settings), numbers)
}

/// The settings in words.
pub fn name(settings: &Settings) -> String {
    let kind = ["plain", "staged"][settings.kind];
    let Settings { k, top, n, .. } = *settings;
    format!("{kind} k = {k}, L = {top}, n = {n}")
}

/// The sums of these numbers, place by place.
pub fn summed<const N: usize>(rows: &[[u64; N]]) -> [u64; N] {
    std::array::from_fn(|place| rows.iter().map(|row| row[place]).sum())
}

/// A last row: the sums of the rows above it.
pub fn total<const N: usize>(rows: &[[u64; N]]) -> String {
    named("all", &summed(rows))
}

fn named(name: &str, numbers: &[u64]) -> String {
    let numbers: Vec<String> = numbers.iter().copied().map(grouped).collect();
    format!("| {name} | {} |\n", numbers.join(" | "))
}

/// A number with a comma before each three digits.
fn grouped(number: u64) -> String {
    match number / 1000 {
        0 => number.to_string(),
        thousands => format!("{},{:03}", grouped(thousands), number % 1000),
    }
}
