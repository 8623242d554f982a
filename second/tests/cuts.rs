//! What a power cut leaves: docs/RULES.md's order of writing, and the move for which no order is safe.

mod common;

use common::{accept, bits, cells, stage};
use second::pictures::{Index, Parity, Shown};
use second::random::Random;
use second::sheets::accepted;
use second::{change, read, Answer, Settings};
use std::collections::{HashMap, HashSet};

/// The changes for which the page says that its order of writing is safe, and the others.
#[derive(Clone, Copy, Debug, PartialEq, Eq, Hash)]
enum Case {
    StageZero,
    Step,
    Fills,
    EvenFree,
    OddFree,
    Move,
    LargestMove,
}

const SAFE: [Case; 5] = [
    Case::StageZero,
    Case::Step,
    Case::Fills,
    Case::EvenFree,
    Case::Move,
];

fn shown(settings: &Settings, sheet: &[u8]) -> Shown {
    Shown {
        settings: *settings,
        before: sheet.to_vec(),
        cells: sheet.to_vec(),
        raised: 0,
        changes: 0,
    }
}

/// Which case a change is, by the sheets before and after it.
fn case(settings: &Settings, [before, after]: [&[u8]; 2], bit: usize) -> Case {
    let (old, new) = (shown(settings, before), shown(settings, after));
    let r = new.stage();
    if r == 0 {
        return Case::StageZero;
    }
    let length = settings.k >> r;
    let live = |block: &&[u8]| !old.is_full(block);
    let blocks = before[..settings.m * settings.k].chunks(length);
    if old.stage() < r {
        return match blocks.filter(live).count() == 2 * (settings.k - 1) {
            true => Case::LargestMove,
            false => Case::Move,
        };
    }
    let indexes = old.index_blocks(r);
    let index = |slot: usize| old.index(indexes[slot].clone());
    let parity = old.parity_blocks(r);
    let named = |block: &&Parity| block.slot.map(index) == Some(Index::Bit(bit));
    if let Some(block) = parity.iter().find(named) {
        return match new.is_full(&after[block.cells.clone()]) {
            true => Case::Fills,
            false => Case::Step,
        };
    }
    let free = |block: &&Parity| block.slot.map(index) == Some(Index::Free);
    let taken = parity.iter().find(free).expect("a free block is taken");
    match old.weight(taken.cells.clone()) % 2 {
        0 => Case::EvenFree,
        _ => Case::OddFree,
    }
}

/// The cells that rise, in the order of the page: each as often as it rises, any order within a part.
fn pulses(random: &mut Random, settings: &Settings, [before, after]: [&[u8]; 2]) -> Vec<usize> {
    let new = shown(settings, after);
    let blocks: Vec<_> = (1..settings.s).flat_map(|r| new.index_blocks(r)).collect();
    let (full, open): (Vec<_>, Vec<_>) = blocks
        .into_iter()
        .partition(|block| new.index(block.clone()) == Index::Full);
    let first = open.into_iter().flatten().collect();
    let last = full.into_iter().flatten().collect();
    let parts: [Vec<usize>; 3] = [first, (0..settings.m * settings.k).collect(), last];
    let mut order = Vec::new();
    for part in parts {
        let rises = |&cell: &usize| vec![cell; usize::from(after[cell] - before[cell])];
        let mut part: Vec<usize> = part.iter().flat_map(rises).collect();
        random.shuffle(&mut part);
        order.append(&mut part);
    }
    order
}

/// Whether a sheet that is cut between two reads as one of them or is refused.
fn harmless(settings: &Settings, sheet: &[u8], ends: &[Vec<u8>; 2]) -> bool {
    let mut found = vec![0; settings.k];
    match read(settings, sheet, &mut found) {
        Answer::Done(_) => ends.contains(&found),
        answer => answer == Answer::BadSheet,
    }
}

#[test]
fn the_order_of_writing_is_safe_where_the_page_says_so() {
    let mut random = Random::new(11);
    let mut seen: HashMap<(Case, bool), usize> = HashMap::new();
    let all = [
        accept(1, 4, 1, 60),
        accept(1, 4, 2, 28),
        accept(1, 8, 1, 250),
        accept(1, 8, 3, 120),
        accept(1, 16, 2, 600),
    ];
    for settings in all {
        for round in 0..2_000 {
            let before = accepted(&mut random, &settings, round % settings.s);
            let bit = random.below(settings.k);
            let mut after = before.clone();
            if change(&settings, &mut after, bit) == Answer::Erase {
                continue;
            }
            let ends = [&before, &after].map(|sheet| bits(&settings, sheet));
            let case = case(&settings, [&before, &after], bit);
            let mut sheet = before.clone();
            let mut safe = true;
            for cell in pulses(&mut random, &settings, [&before, &after]) {
                sheet[cell] += 1;
                safe &= harmless(&settings, &sheet, &ends);
            }
            assert_eq!(sheet, after);
            assert!(safe || !SAFE.contains(&case), "{case:?} {before:?} {bit}");
            *seen.entry((case, safe)).or_default() += 1;
        }
    }
    for case in SAFE {
        assert!(seen[&(case, true)] > 20, "{case:?} {seen:?}");
    }
    for case in [Case::OddFree, Case::LargestMove] {
        assert!(seen[&(case, false)] > 5, "{case:?} {seen:?}");
    }
}

#[test]
fn no_order_is_safe_for_the_worked_move() {
    let settings = accept(1, 4, 2, 28);
    let before = cells("1000 0100 0010 2222 000000 000000");
    let mut after = before.clone();
    assert_eq!(change(&settings, &mut after, 3), Answer::Done(8));
    assert_eq!(
        [stage(&settings, &before), stage(&settings, &after)],
        [0, 1]
    );
    let ends = [&before, &after].map(|sheet| bits(&settings, sheet));
    let (mut reached, mut turn) = (HashSet::from([before.clone()]), vec![before]);
    while let Some(sheet) = turn.pop() {
        assert_ne!(sheet, after, "an order is safe");
        for cell in (0..settings.n).filter(|&cell| sheet[cell] < after[cell]) {
            let mut next = sheet.clone();
            next[cell] += 1;
            if harmless(&settings, &next, &ends) && reached.insert(next.clone()) {
                turn.push(next);
            }
        }
    }
    assert_eq!(
        reached.len(),
        4,
        "the two raised parity blocks are all that can be written"
    );
}
