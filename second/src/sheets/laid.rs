//! Sheets at stage 0 laid block by block, and rows of full and active blocks for them.

use crate::random::Random;
use crate::Settings;

/// What a block of k cells at stage 0 is.
#[derive(Clone, Copy, Debug, PartialEq, Eq)]
pub enum State {
    /// All 0.
    Empty,
    /// The step of this weight of the cycle that starts at this cell.
    Active(usize, usize),
    /// All at the top level.
    Full,
}

/// A sheet at stage 0 with these blocks, and empty ones after them.
pub fn laid(settings: &Settings, blocks: &[State]) -> Vec<u8> {
    let mut sheet = vec![0; settings.n];
    lay(settings, blocks, &mut sheet);
    sheet
}

/// Writes these blocks, and empty ones after them.
pub(super) fn lay(settings: &Settings, blocks: &[State], sheet: &mut [u8]) {
    let Settings { k, top, m, .. } = *settings;
    let all = blocks.iter().chain(std::iter::repeat(&State::Empty));
    for (block, cells) in all.zip(sheet.chunks_exact_mut(k).take(m)) {
        let (start, weight) = match *block {
            State::Empty => (0, 0),
            State::Active(start, weight) => (start, weight),
            State::Full => (0, k * top),
        };
        for j in 0..k {
            let level = weight.saturating_sub(j * top).min(top);
            cells[(start + j) % k] = level as u8;
        }
    }
}

/// So many full blocks, but active ones with different bits at these places.
pub(super) fn full_and_active(
    random: &mut Random,
    settings: &Settings,
    used: usize,
    places: &[usize],
) -> Vec<State> {
    let Settings { k, top, .. } = *settings;
    let style = random.below(5);
    let mut bits: Vec<usize> = (0..k).collect();
    random.shuffle(&mut bits);
    let mut blocks = vec![State::Full; used];
    for (&place, bit) in places.iter().zip(bits) {
        blocks[place] = State::Active(bit, some_weight(random, k, top, style));
    }
    blocks
}

/// A weight of an active block: near either end, at a cell's end, past the middle, or any.
fn some_weight(random: &mut Random, k: usize, top: usize, style: usize) -> usize {
    let (last, half) = (k * top - 1, k * top / 2);
    match style {
        0 => random.between(1, last.min(3)),
        1 => last - random.below(last.min(3)),
        2 => top * random.between(1, k - 1),
        3 => random.between(half, half + half / 2),
        _ => random.between(1, last),
    }
}
