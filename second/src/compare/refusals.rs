//! Every overlap of faults: a forged record, a wrong length, a short output, a bad bit, levels
//! above L at several places, and a broken sheet, in every set of them at once.

use super::case::{Call, Case};
use super::comparison::Comparison;
use super::forged::small_settings;
use crate::random::Random;
use crate::sheets::{accepted, Damage};
use crate::{read, Answer, Settings};

/// All overlaps on so many sheets, of both kinds and every stage.
pub fn refusals(comparison: &mut Comparison, seed: u64, rounds: usize) {
    let mut random = Random::new(seed);
    for round in 0..rounds {
        let settings = match round {
            0 => Settings::accept(0, 4, 2, 19).1,
            1 => Settings::accept(1, 4, 2, 30).1,
            _ => small_settings(&mut random, round % 2),
        };
        let stage = (round / 2) % settings.s.max(1);
        let mut sheet = accepted(&mut random, &settings, stage);
        if round % 5 == 4 && stage == 0 {
            sheet[..settings.m * settings.k].fill(settings.top as u8);
        }
        for good_or_broken in broken(&mut random, &settings, &sheet) {
            for high in levels(&settings, &good_or_broken) {
                for length in [settings.n, 0, settings.n - 1, settings.n + 1] {
                    let mut lent = high.clone();
                    lent.resize(length, 0);
                    calls(comparison, &mut random, &settings, lent);
                }
            }
        }
    }
}

/// The sheet itself, and a few that break the sheet rules.
fn broken(random: &mut Random, settings: &Settings, sheet: &[u8]) -> Vec<Vec<u8>> {
    let mut sheets = vec![sheet.to_vec()];
    for _ in 0..200 {
        let damage = random.one_of(&[
            Damage::Cell,
            Damage::Index,
            Damage::Spare,
            Damage::Hole,
            Damage::FullLast,
        ]);
        let Some(damaged) = damage.apply(random, settings, sheet) else {
            continue;
        };
        if read(settings, &damaged, &mut [0; 64]) == Answer::BadSheet {
            sheets.push(damaged);
        }
        if sheets.len() == 4 {
            break;
        }
    }
    sheets
}

/// The sheet itself, and with levels above L: at either end, in the middle, at the first cell
/// after the blocks, at both ends, everywhere.
fn levels(settings: &Settings, sheet: &[u8]) -> Vec<Vec<u8>> {
    let Settings { k, top, n, m, .. } = *settings;
    let mut sheets = vec![sheet.to_vec()];
    if top == 255 {
        return sheets;
    }
    let after = (m * k).min(n - 1);
    let all: Vec<usize> = (0..n).collect();
    for places in [
        &[0][..],
        &[n - 1],
        &[n / 2, n / 2 + 1],
        &[after],
        &[1, n - 1],
        &all,
    ] {
        let mut high = sheet.to_vec();
        for &place in places {
            high[place] = if place % 2 == 0 { top as u8 + 1 } else { 255 };
        }
        sheets.push(high);
    }
    sheets
}

/// All calls on this sheet, with records and arguments both good and faulty.
fn calls(comparison: &mut Comparison, random: &mut Random, settings: &Settings, sheet: Vec<u8>) {
    let good = settings.numbers();
    let mut records = vec![good.to_vec(), good[..6].to_vec(), vec![0; 7]];
    let field = random.below(7);
    let mut forged = good;
    forged[field] = random.one_of(&super::forged::others(good[field]));
    records.push(forged.to_vec());
    let k = settings.k;
    for record in records {
        let mut case = Case::on(Call::Erase, settings, &sheet);
        case.numbers = record;
        comparison.compare(&case);
        case.call = Call::Read;
        for places in [k, k - 1, 0, 1, k + 3] {
            case.places = places;
            comparison.compare(&case);
        }
        case.call = Call::Change;
        for bit in [0, k - 1, k, k + 1, 256, 1 << 32, usize::MAX] {
            case.bit = bit;
            comparison.compare(&case);
        }
    }
}
