//! Settings around the limits, n around its edges, and huge numbers.

use super::case::Case;
use super::comparison::Comparison;
use super::size::Size;
use crate::Settings;

/// All of it, or a few L in a light run.
pub fn settings(comparison: &mut Comparison, size: Size) {
    let tops: Vec<usize> = match size {
        Size::Light => vec![0, 1, 2, 15, 255, 256],
        _ => (0..=257).collect(),
    };
    for (kind, k) in pairs(&[0, 1, 2], &(0..=66).collect::<Vec<usize>>()) {
        for &top in &tops {
            for n in edges(kind, k, top) {
                comparison.compare(&Case::settings([kind, k, top, n]));
            }
        }
    }
    for (kind, k) in pairs(&HUGE, &HUGE) {
        for (top, n) in pairs(&HUGE, &HUGE) {
            comparison.compare(&Case::settings([kind, k, top, n]));
        }
    }
    for asked in [[0, 4, 2, 16], [1, 4, 2, 28], [0, 2, 1, 3]] {
        for places in 0..20 {
            let case = Case::settings(asked);
            comparison.compare(&Case { places, ..case });
        }
    }
}

/// Numbers of every size, some of which wrap to good ones.
const HUGE: [usize; 13] = [
    0,
    1,
    2,
    3,
    4,
    64,
    255,
    16_384,
    16_385,
    1 << 32,
    (1 << 32) + 4,
    1 << 63,
    usize::MAX,
];

/// Each of the first with each of the second.
fn pairs<'a>(first: &'a [usize], second: &'a [usize]) -> impl Iterator<Item = (usize, usize)> + 'a {
    first
        .iter()
        .flat_map(move |&left| second.iter().map(move |&right| (left, right)))
}

/// The least n that is accepted and those around it, those with one more block, and the most.
fn edges(kind: usize, k: usize, top: usize) -> Vec<usize> {
    let mut edges = vec![0, 1, 16_383, 16_384, 16_385, usize::MAX];
    let (_, widest) = Settings::accept(kind as u64, k as u64, top as u64, 16_384);
    let least = match widest.k {
        0 => k * k,
        _ => k * k + widest.index_cells(),
    };
    for more in [0, k] {
        edges.extend((least + more).saturating_sub(1)..=least + more + 1);
    }
    edges
}
