//! Changes that must go on to a later stage, or answer Erase, on sheets built for it.

use super::case::{Call, Case};
use super::comparison::Comparison;
use crate::random::Random;
use crate::Settings;

/// So many sheets of every stage where a bit has no block and finds none: that bit is changed, and
/// a few more after it.
pub fn moves(comparison: &mut Comparison, seed: u64, rounds: usize) {
    let mut random = Random::new(seed);
    for _ in 0..rounds {
        let settings = some_staged(&mut random);
        let stage = random.below(settings.s);
        let (sheet, bit) = crowded(&mut random, &settings, stage);
        let mut case = Case::on(Call::Read, &settings, &sheet);
        comparison.compare(&case);
        case.call = Call::Change;
        case.bit = bit;
        for _ in 0..4 {
            let reply = comparison.compare(&case);
            case.sheet.copy_from_slice(comparison.sheet());
            if reply.is_none_or(|reply| reply.answer != 0) {
                break;
            }
            case.bit = random.below(settings.k);
        }
    }
}

/// Staged settings with few blocks, and few cells more often.
fn some_staged(random: &mut Random) -> Settings {
    loop {
        let k = random.one_of(&[4, 8, 8, 8, 16, 16, 16, 32, 64]);
        let top = random.one_of(&[1, 1, 2, 3, 15, 255]);
        let (_, widest) = Settings::accept(1, k, top, 16_384);
        let more = random.below(3 * k as usize);
        let n = (k * k) as usize + widest.index_cells() + more;
        let (_, settings) = Settings::accept(1, k, top, n as u64);
        if settings.k > 0 {
            return settings;
        }
    }
}

/// An accepted sheet at this stage, and a bit that has no block there. Its live blocks are at most
/// k - 1, each of another bit, and none is free: the bit can only go on to a later stage.
fn crowded(random: &mut Random, settings: &Settings, stage: usize) -> (Vec<u8>, usize) {
    let Settings { k, top, m, .. } = *settings;
    let mut sheet = vec![0; settings.n];
    sheet[..m * k].fill(top as u8);
    let mut bits: Vec<usize> = (0..k).collect();
    random.shuffle(&mut bits);
    let (few, any) = (random.between(k / 8, k / 2), random.below(k));
    let count = random.one_of(&[few, any]);
    let length = k >> stage;
    let style = random.below(4);
    for (block, &bit) in random.choose(count, m << stage).into_iter().zip(&bits) {
        let weight = some_weight(random, length * top, style);
        let start = if stage == 0 {
            bit
        } else {
            random.below(length)
        };
        for j in 0..length {
            let level = weight.saturating_sub(j * top).min(top);
            sheet[block * length + (start + j) % length] = level as u8;
        }
    }
    for lower in 1..stage {
        for cell in &mut sheet[settings.batch(lower)] {
            *cell = random.between(0, top) as u8;
        }
    }
    if stage > 0 {
        let slots = random.choose(count, 2 * (k - 1));
        let batch = &mut sheet[settings.batch(stage)];
        fill_batch(settings, batch, &slots, &bits);
    }
    (sheet, bits[count])
}

/// All index blocks full, save for these: each names its bit.
fn fill_batch(settings: &Settings, batch: &mut [u8], slots: &[usize], bits: &[usize]) {
    let Settings { top, w, .. } = *settings;
    batch.fill(top as u8);
    for (slot, bit) in slots.iter().zip(bits) {
        let mut number = bit + 1;
        for digit in batch[slot * w..][..w].iter_mut().rev() {
            *digit = (number % (top + 1)) as u8;
            number /= top + 1;
        }
    }
}

/// A weight of a block that isn't full, and isn't empty: low, near full, any, or now one now
/// another.
fn some_weight(random: &mut Random, full: usize, style: usize) -> usize {
    let last = (full - 1).max(1);
    match style {
        0 => random.between(1, last.min(2)),
        1 => last - random.below(last.min(3)),
        2 => random.between(1, last),
        _ => random.one_of(&[1, last]),
    }
}
