//! Records that acceptance never gives, in every kind.

use super::case::{Call, Case};
use super::comparison::Comparison;
use crate::random::Random;
use crate::sheets::{accepted, some_settings};
use crate::Settings;

/// Every field by one up or down, to 0, to a few others and to huge numbers; two fields at once;
/// records of other numbers of places.
pub fn forged(comparison: &mut Comparison, seed: u64, rounds: usize) {
    let mut random = Random::new(seed);
    for round in 0..rounds {
        let settings = small_settings(&mut random, round % 2);
        let stage = random.below(settings.s.max(1));
        let sheet = accepted(&mut random, &settings, stage);
        let good = settings.numbers();
        for field in 0..7 {
            for number in others(good[field]) {
                let mut record = good;
                record[field] = number;
                calls(comparison, &record, &sheet);
                let second = random.below(7);
                record[second] = random.one_of(&others(good[second]));
                calls(comparison, &record, &sheet);
            }
        }
        for places in (0..7).chain(8..20) {
            let record: Vec<usize> = good.iter().copied().cycle().take(places).collect();
            calls(comparison, &record, &sheet);
        }
        calls(comparison, &[0; 7], &sheet);
        calls(comparison, &[0; 7], &[]);
    }
}

/// Settings of not too many cells.
pub fn small_settings(random: &mut Random, kind: usize) -> Settings {
    loop {
        let settings = some_settings(random, kind);
        if settings.n <= 700 {
            return settings;
        }
    }
}

/// What a field is changed to.
pub fn others(number: usize) -> [usize; 13] {
    [
        number + 1,
        number.wrapping_sub(1),
        0,
        1,
        2,
        8,
        2 * number,
        number + 256,
        number + (1 << 32),
        16_385,
        1 << 32,
        1 << 63,
        usize::MAX,
    ]
}

/// All three calls on this record: on the sheet, and on as many cells as the record says.
fn calls(comparison: &mut Comparison, record: &[usize], sheet: &[u8]) {
    for call in [Call::Erase, Call::Read, Call::Change] {
        let mut case = Case::on(call, &Settings::of(record), sheet);
        case.numbers = record.to_vec();
        case.places = 70;
        comparison.compare(&case);
        let n = record.get(3).copied().unwrap_or(0);
        if n != sheet.len() && n < 1000 {
            case.sheet.resize(n, 0);
            comparison.compare(&case);
        }
    }
}
