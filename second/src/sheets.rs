//! Settings, accepted sheets of every stage, and damaged ones, built directly and without the
//! model's own decoding and encoding: also sheets that no run of changes reaches.

mod damage;
mod every;
mod laid;

use crate::random::Random;
use crate::Settings;
use laid::{full_and_active, lay};

pub use damage::Damage;
pub use every::{every, every_of_sum};
pub use laid::{laid, State};

/// Accepted settings of a kind (0 or 1), small ones and those at the limits more often.
pub fn some_settings(random: &mut Random, kind: usize) -> Settings {
    loop {
        let any_k = random.between(2, 64);
        let k = match kind {
            0 => random.one_of(&[2, 3, 4, 5, 8, 63, 64, any_k]),
            _ => random.one_of(&[4, 4, 8, 8, 16, 32, 64]),
        };
        let any_top = random.between(1, 255);
        let top = random.one_of(&[1, 1, 2, 3, 15, 254, 255, any_top]);
        let accept = |n| Settings::accept(kind as u64, k as u64, top as u64, n as u64).1;
        let widest = accept(16_384);
        if widest.k == 0 {
            continue;
        }
        let least = k * k + widest.index_cells();
        let (few, any) = (random.below(4 * k), random.between(least, 16_384));
        return accept(
            random
                .one_of(&[least, least + 1, least + few, any])
                .min(16_384),
        );
    }
}

/// An accepted sheet at this stage: 0 for plain, 0 to s - 1 for staged settings.
pub fn accepted(random: &mut Random, settings: &Settings, stage: usize) -> Vec<u8> {
    let mut sheet = vec![0; settings.n];
    if stage == 0 {
        fill_whole(random, settings, &mut sheet);
    } else {
        fill_cut(random, settings, stage, &mut sheet);
        fill_batch(random, settings, stage, &mut sheet);
        for lower in 1..stage {
            fill_lower(random, settings.top, &mut sheet[settings.batch(lower)]);
        }
    }
    sheet
}

/// Full and active blocks in any order, the active ones with different bits, then empty ones.
/// Where all k bits have active blocks, the last block that isn't empty is one of them.
fn fill_whole(random: &mut Random, settings: &Settings, sheet: &mut [u8]) {
    let Settings { k, m, .. } = *settings;
    let (any, most) = (random.between(0, k), random.between(k / 2, k - 1));
    let count = random.one_of(&[0, k - 1, most, most, most, k, any]);
    let (few, many) = (random.between(count, k), random.between(count, m));
    let used = random.one_of(&[m, m, m, count, few, many, many]);
    let mut places = random.choose(count, used);
    if count == k {
        places[k - 1] = used - 1;
    }
    let blocks = full_and_active(random, settings, used, &places);
    lay(settings, &blocks, sheet);
}

/// Up to 2(k - 1) live parity blocks at any places, all others full.
fn fill_cut(random: &mut Random, settings: &Settings, stage: usize, sheet: &mut [u8]) {
    let Settings { k, top, m, .. } = *settings;
    let length = k >> stage;
    sheet[..m * k].fill(top as u8);
    let (any, most) = (random.between(0, 2 * (k - 1)), random.between(k / 2, k - 1));
    let count = random.one_of(&[0, 1, k - 1, most, most, most, k, 2 * (k - 1), any]);
    for block in random.choose(count, m << stage) {
        fill_live(random, top, &mut sheet[block * length..][..length]);
    }
}

/// Any levels that don't make the block full.
fn fill_live(random: &mut Random, top: usize, block: &mut [u8]) {
    let style = random.below(4);
    for cell in block.iter_mut() {
        *cell = match style {
            0 => random.between(0, top),
            1 => random.one_of(&[0, top]),
            2 => 0,
            _ => top,
        } as u8;
    }
    if block.iter().all(|&level| usize::from(level) == top) {
        let lowered = random.below(top);
        block[random.below(block.len())] = random.one_of(&[top - 1, lowered]) as u8;
    }
}

/// As many live indexes as there are live parity blocks, at any places of the stage's batch:
/// different numbers from 1 to k, or 0. The batch has a cell above 0.
fn fill_batch(random: &mut Random, settings: &Settings, stage: usize, sheet: &mut [u8]) {
    let Settings { k, top, m, w, .. } = *settings;
    let parity_blocks = sheet[..m * k].chunks_exact(k >> stage);
    let is_live = |block: &&[u8]| block.iter().any(|&level| usize::from(level) < top);
    let live = parity_blocks.filter(is_live).count();
    let mut numbers: Vec<usize> = (1..=k).collect();
    random.shuffle(&mut numbers);
    let any = random.between(1, k);
    numbers.truncate(random.one_of(&[1, k, k, any]));
    numbers.resize(numbers.len().max(live), 0);
    let kept = numbers[0];
    random.shuffle(&mut numbers);
    numbers.truncate(live);
    if live > 0 && !numbers.contains(&kept) {
        numbers[random.below(live)] = kept;
    }
    let batch = &mut sheet[settings.batch(stage)];
    batch.fill(top as u8);
    for (slot, number) in random.choose(live, 2 * (k - 1)).into_iter().zip(numbers) {
        write_index(top, number, &mut batch[slot * w..][..w]);
    }
}

/// Digits in base top + 1, most significant first.
fn write_index(top: usize, number: usize, digits: &mut [u8]) {
    let mut value = 1;
    for digit in digits.iter_mut().rev() {
        *digit = (number / value % (top + 1)) as u8;
        value *= top + 1;
    }
}

/// What a batch below the stage may hold: anything.
fn fill_lower(random: &mut Random, top: usize, batch: &mut [u8]) {
    let style = random.below(3);
    for cell in batch {
        *cell = match style {
            0 => 0,
            1 => top,
            _ => random.between(0, top),
        } as u8;
    }
}
