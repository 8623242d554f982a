//! What the tests share.
#![allow(dead_code)]

use second::compare::{Model, Plan, Size};
use second::past::reached;
use second::{change, read, Answer, Flaw, Settings};

/// Settings that must be accepted.
pub fn accept(kind: u64, k: u64, top: u64, n: u64) -> Settings {
    let (answer, settings) = Settings::accept(kind, k, top, n);
    assert_eq!(answer, Answer::Done(settings.guarantee()));
    settings
}

/// Settings of this kind with the least number of cells that is accepted.
pub fn least(kind: u64, k: u64, top: u64) -> Settings {
    let n = (0..16_384)
        .find(|&n| Settings::accept(kind, k, top, n).0 != Answer::BadShape)
        .unwrap();
    accept(kind, k, top, n)
}

/// The cells of a row of digits; other signs only separate.
pub fn cells(digits: &str) -> Vec<u8> {
    digits
        .bytes()
        .filter(u8::is_ascii_digit)
        .map(|digit| digit - b'0')
        .collect()
}

/// The bits of a sheet that must be accepted.
pub fn bits(settings: &Settings, sheet: &[u8]) -> Vec<u8> {
    let mut bits = vec![9; settings.k];
    let answer = read(settings, sheet, &mut bits);
    let ones = bits.iter().filter(|&&bit| bit == 1).count() as u64;
    assert_eq!(answer, Answer::Done(ones));
    assert!(bits.iter().all(|&bit| bit < 2));
    bits
}

/// The sum of levels.
pub fn sum(sheet: &[u8]) -> u64 {
    sheet.iter().map(|&level| u64::from(level)).sum()
}

/// The highest batch with a cell above 0, or 0.
pub fn stage(settings: &Settings, sheet: &[u8]) -> usize {
    let Settings { k, m, s, w, .. } = *settings;
    let size = 2 * (k - 1) * w;
    let raised = |r: &usize| sum(&sheet[m * k + (r - 1) * size..][..size]) > 0;
    (1..s).rev().find(raised).unwrap_or(0)
}

/// Changes a bit of an accepted sheet and checks all that must hold of every change.
pub fn checked_change(settings: &Settings, sheet: &mut [u8], bit: usize) -> Answer {
    let (before, mut expected) = (sheet.to_vec(), bits(settings, sheet));
    let answer = change(settings, sheet, bit);
    match answer {
        Answer::Done(raised) => {
            expected[bit] ^= 1;
            assert_eq!(bits(settings, sheet), expected, "bits after");
            assert!(
                before.iter().zip(&*sheet).all(|(old, new)| old <= new),
                "a level fell"
            );
            assert_eq!(raised, sum(sheet) - sum(&before), "levels raised");
            assert!(raised > 0);
        }
        Answer::Erase => assert_eq!(before, sheet, "Erase changed the sheet"),
        other => panic!("{other:?}"),
    }
    answer
}

/// Whether some run of changes from the erased sheet ends in this one. Levels never fall, so only
/// sheets with no level above it can come before; each of them must be accepted.
pub fn has_a_past(settings: &Settings, sheet: &[u8]) -> bool {
    let below = |before: &[u8]| before.iter().zip(sheet).all(|(old, new)| old <= new);
    let reached = reached(settings, below);
    for before in &reached {
        bits(settings, before);
    }
    reached.contains(sheet)
}

/// The comparison's group of this name tells the flaw, also where little is run.
pub fn group_tells(name: &str, flaw: Flaw) {
    let plan = Plan {
        seed: 7,
        calls: 1,
        files: 0,
        size: Size::Light,
        exact: false,
        trace: false,
    };
    let mut groups = 0;
    plan.library(&Model(flaw), &mut |group| {
        if group.text.starts_with(&format!("{name}:")) {
            println!("{flaw:?}: {}", group.text);
            assert!(!group.passed, "{flaw:?}");
            groups += 1;
        }
    });
    assert_eq!(groups, 1);
}
