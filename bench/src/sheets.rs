//! Sheets to measure calls on, with few blocks in use or with many.

use crate::places::batch;
use second::random::Random;
use second::Settings;

/// How many blocks of a sheet are in use.
#[derive(Clone, Copy, Debug, PartialEq, Eq)]
pub enum Use {
    /// Stage 0: one active block. Later: two live blocks, of which one is free.
    Few,
    /// Stage 0: an active block for each bit. Later: 2(k - 1) live blocks, one for each bit.
    Many,
}

impl Use {
    /// Its name in tables.
    pub fn name(self) -> &'static str {
        match self {
            Use::Few => "few",
            Use::Many => "many",
        }
    }
}

/// A sheet at this stage on which the change of any bit finds a place within the stage.
pub fn sheet(settings: &Settings, stage: usize, blocks: Use) -> Vec<u8> {
    let mut random = Random::new(1);
    let mut sheet = vec![0; settings.n];
    let mut bits: Vec<usize> = (0..settings.k).collect();
    match blocks {
        Use::Few => bits.truncate(1),
        Use::Many => random.shuffle(&mut bits),
    }
    if stage == 0 {
        fill_blocks(&mut random, settings, &bits, &mut sheet);
    } else {
        fill_parity_blocks(&mut random, settings, stage, &bits, &mut sheet);
    }
    sheet
}

/// A sheet at stage 0 with an active block for each of these bits, in this order; it breaks the rules if a bit is named twice.
pub fn active(settings: &Settings, bits: &[usize]) -> Vec<u8> {
    let mut sheet = vec![0; settings.n];
    fill_blocks(&mut Random::new(1), settings, bits, &mut sheet);
    sheet
}

/// Full blocks, then an active block for each of these bits, then empty ones, as a run leaves them.
fn fill_blocks(random: &mut Random, settings: &Settings, bits: &[usize], sheet: &mut [u8]) {
    let Settings { k, top, m, .. } = *settings;
    let full = (m - bits.len()) / 2;
    sheet[..full * k].fill(top as u8);
    for (block, &bit) in (full..).zip(bits) {
        let weight = random.between(1, k * top - 1);
        for j in 0..k {
            let level = weight.saturating_sub(j * top).min(top);
            sheet[block * k + (bit + j) % k] = level as u8;
        }
    }
}

/// Live parity blocks for these bits and free ones, anywhere, and the stage's batch to them.
fn fill_parity_blocks(
    random: &mut Random,
    settings: &Settings,
    stage: usize,
    bits: &[usize],
    sheet: &mut [u8],
) {
    let Settings { k, top, m, w, .. } = *settings;
    let (length, slots) = (k >> stage, 2 * (k - 1));
    // Bits 1 to k - 1 of a sheet with few blocks find their place in the free one.
    let live = if bits.len() == 1 { 2 } else { slots };
    sheet[..batch(settings, stage).end].fill(top as u8);
    for block in random.choose(live, m << stage) {
        let cells = &mut sheet[block * length..][..length];
        cells.fill_with(|| random.between(0, top) as u8);
        cells[random.below(length)] = random.below(top) as u8;
    }
    let mut numbers: Vec<usize> = bits.iter().map(|bit| bit + 1).collect();
    numbers.resize(live, 0);
    random.shuffle(&mut numbers);
    let cells = &mut sheet[batch(settings, stage)];
    for (slot, mut number) in random.choose(live, slots).into_iter().zip(numbers) {
        for digit in cells[slot * w..][..w].iter_mut().rev() {
            *digit = (number % (top + 1)) as u8;
            number /= top + 1;
        }
    }
}
