//! The generators give what they say, and the model keeps its rules on all of it.

mod common;

use common::{bits, checked_change, stage};
use second::random::Random;
use second::sheets::{accepted, some_settings, Damage};
use second::{change, read, Answer, Flaw, Settings};
use std::collections::HashMap;

/// Calls the check with settings of both kinds and a sheet of each stage.
fn each_sheet(rounds: usize, mut check: impl FnMut(&mut Random, &Settings, usize, Vec<u8>)) {
    let mut random = Random::new(4);
    for round in 0..rounds {
        let settings = some_settings(&mut random, round % 2);
        for stage in 0..settings.s.max(1) {
            let sheet = accepted(&mut random, &settings, stage);
            check(&mut random, &settings, stage, sheet);
        }
    }
}

#[test]
fn accepted_sheets_are_accepted_at_their_stage() {
    each_sheet(1000, |_, settings, asked, sheet| {
        bits(settings, &sheet);
        assert_eq!(stage(settings, &sheet), asked);
    });
}

/// How many active and full blocks there are, how many up to the last that isn't empty, and whether
/// that one is full.
fn order(settings: &Settings, sheet: &[u8]) -> (usize, usize, usize, bool) {
    let all = |block: &[u8], level: usize| block.iter().all(|&cell| usize::from(cell) == level);
    let Settings { k, top, m, .. } = *settings;
    let blocks: Vec<&[u8]> = sheet[..m * k].chunks(k).collect();
    let last = blocks.iter().rposition(|block| !all(block, 0));
    let empty = blocks.iter().filter(|block| all(block, 0)).count();
    let full = blocks.iter().filter(|block| all(block, top)).count();
    let used = last.map_or(0, |last| last + 1);
    let full_last = last.is_some_and(|last| all(blocks[last], top));
    (m - empty - full, full, used, full_last)
}

/// All, all but one, some or none of the bits active; no block empty, some, or all; a full one last
/// or not; and of those that can be, each often.
#[test]
fn accepted_sheets_at_stage_0_are_of_every_sort() {
    let mut sorts = HashMap::new();
    each_sheet(4000, |_, settings, stage, sheet| {
        if stage > 0 {
            return;
        }
        let Settings { k, m, .. } = *settings;
        let (active, full, used, full_last) = order(settings, &sheet);
        assert_eq!(active + full, used, "a hole");
        assert!(active < k || !full_last, "a full block last");
        let bits = [0, k - 1, k].iter().position(|&count| count == active);
        let room = [0, m].iter().position(|&blocks| blocks == used);
        *sorts.entry((bits, room, full_last)).or_insert(0) += 1;
    });
    println!("{sorts:?}");
    // None active: all empty, or full ones up to some block or to the last one. All k active: some
    // blocks or all in use. Some or k - 1 active: these, with a full block last or not.
    assert_eq!(sorts.len(), 3 + 2 + 4 + 4);
    assert!(sorts.values().all(|&count| count > 20), "{sorts:?}");
}

/// What a sheet answers with all rules, with only one of the two about the order of blocks, and with
/// neither.
fn answers(settings: &Settings, sheet: &[u8], other_left_out: Flaw) -> [u64; 3] {
    [Flaw::None, other_left_out, Flaw::OrderIgnored]
        .map(|flaw| flaw.during(|| read(settings, sheet, &mut [0; 64]).number()))
}

/// A sheet with a hole or with a full block last breaks that rule, and no rule but those two.
#[test]
fn damage_to_the_order_of_blocks() {
    let mut counts = [[0; 2]; 2];
    each_sheet(1000, |random, settings, stage, sheet| {
        let Settings { k, m, .. } = *settings;
        let hole = Damage::Hole.apply(random, settings, &sheet);
        assert_eq!(hole.is_some(), stage == 0 && common::sum(&sheet) > 0);
        if let Some(sheet) = hole {
            let found = answers(settings, &sheet, Flaw::FullLastAccepted);
            assert_eq!(found, [6, 6, 0]);
            counts[0][usize::from(order(settings, &sheet).3)] += 1;
        }
        let ends_full = Damage::FullLast.apply(random, settings, &sheet);
        assert_eq!(ends_full.is_some(), stage == 0 && m > k);
        if let Some(sheet) = ends_full {
            let found = answers(settings, &sheet, Flaw::HoleAccepted);
            assert_eq!(found, [6, 6, 0]);
            let (active, full, used, full_last) = order(settings, &sheet);
            assert_eq!((active, active + full, full_last), (k, used, true));
            counts[1][usize::from(used == m)] += 1;
        }
    });
    assert!(counts.iter().flatten().all(|&c| c > 100), "{counts:?}");
}

#[test]
fn changes_of_accepted_sheets() {
    let (mut moves, mut skips, mut erases) = (0, 0, 0);
    each_sheet(300, |random, settings, before, sheet| {
        for _ in 0..4 {
            let mut sheet = sheet.clone();
            let bit = random.below(settings.k);
            let answer = checked_change(settings, &mut sheet, bit);
            let after = stage(settings, &sheet);
            assert!(after >= before);
            moves += usize::from(after == before + 1);
            skips += usize::from(after > before + 1);
            erases += usize::from(answer == Answer::Erase);
        }
    });
    assert!(
        moves > 20 && skips > 20 && erases > 20,
        "{moves} {skips} {erases}"
    );
}

#[test]
fn damaged_sheets_are_refused_as_their_damage_says() {
    let mut counts = [0; 9];
    each_sheet(300, |random, settings, _, sheet| {
        for damage in Damage::ALL {
            let Some(mut damaged) = damage.apply(random, settings, &sheet) else {
                continue;
            };
            let first = damaged
                .iter()
                .position(|&level| usize::from(level) > settings.top);
            let mut output = [7; 70];
            let answer = read(settings, &damaged, &mut output);
            match damage {
                Damage::Length => assert_eq!(answer, Answer::BadLength),
                Damage::Level => assert_eq!(answer, Answer::BadLevel(first.unwrap() as u64)),
                Damage::Spare | Damage::Hole | Damage::FullLast => {
                    assert_eq!(answer, Answer::BadSheet);
                }
                _ => assert!([0, 6].contains(&answer.number())),
            }
            counts[answer.number() as usize] += 1;
            let untouched = if answer.number() == 0 { settings.k } else { 0 };
            assert!(output[untouched..].iter().all(|&place| place == 7));
            let before = damaged.clone();
            let changed = change(settings, &mut damaged, random.below(settings.k));
            if answer.number() != 0 {
                assert_eq!((changed, damaged), (answer, before));
            }
        }
    });
    let seen: Vec<usize> = (0..9).filter(|&number| counts[number] > 50).collect();
    assert_eq!(seen, [0, 2, 5, 6], "{counts:?}");
}
