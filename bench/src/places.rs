//! What is measured: settings of both kinds, and the stages of a staged sheet.

use second::Settings;
use std::ops::Range;

/// k, L and n of the sheets that calls are measured on.
pub const SHAPES: [[usize; 3]; 4] = [
    [64, 15, 16_384],
    [64, 1, 16_384],
    [8, 15, 1_024],
    [2, 255, 16_384],
];

/// The settings of this kind and shape, where they are accepted.
pub fn settings(kind: usize, [k, top, n]: [usize; 3]) -> Option<Settings> {
    let (answer, settings) = Settings::accept(kind as u64, k as u64, top as u64, n as u64);
    (answer.number() == 0).then_some(settings)
}

/// The settings of these shapes that are accepted, plain before staged.
pub fn both_kinds(shapes: &[[usize; 3]]) -> Vec<Settings> {
    let kinds = |&shape| [0, 1].map(|kind| settings(kind, shape));
    shapes.iter().flat_map(kinds).flatten().collect()
}

/// The stages that are measured: stage 0, the first after it and the last.
pub fn stages(settings: &Settings) -> Vec<usize> {
    let mut stages = vec![0];
    if settings.kind == 1 {
        stages.extend([1, settings.s - 1]);
    }
    stages.dedup();
    stages
}

/// The cells of batch r, counted from 1.
pub fn batch(settings: &Settings, r: usize) -> Range<usize> {
    let size = 2 * (settings.k - 1) * settings.w;
    let first = settings.m * settings.k + (r - 1) * size;
    first..first + size
}

/// The stage of an accepted sheet: the highest batch with a cell above 0, or 0.
pub fn stage(settings: &Settings, sheet: &[u8]) -> usize {
    let raised = |&r: &usize| sheet[batch(settings, r)].iter().any(|&level| level > 0);
    (1..settings.s).rev().find(raised).unwrap_or(0)
}

/// The name of a kind.
pub fn kind_name(kind: usize) -> &'static str {
    match kind {
        0 => "plain",
        _ => "staged",
    }
}
