//! The order of blocks at stage 0: which sheets are refused for it, and that the staged ones left have
//! a past.

mod common;

use common::{accept, bits, cells, group_tells, sum};
use second::compare::refused::{assignments, reached, settings, table, Refused};
use second::{change, read, Answer, Flaw, Settings};

/// Counted by readings and by formulas, of every assignment of levels.
#[test]
fn the_counts_agree() {
    for settings in settings() {
        let counts = Refused::by_reading(&settings);
        assert_eq!(counts, Refused::by_formulas(&settings), "{settings:?}");
        let refused = counts.hole + counts.full_last + counts.both;
        assert_eq!(counts.any_order, counts.accepted + refused);
        assert!(counts.any_order < assignments(&settings));
        assert!(counts.hole > 0);
        assert_eq!(counts.full_last > 0, settings.m > settings.k);
        assert_eq!(counts.both > 0, settings.m > settings.k + 1);
    }
}

/// A staged sheet at stage 0 is accepted if and only if some run of changes from the erased sheet
/// ends in it: each that is reached is accepted, and there are as many. `past.rs` has the plain ones.
#[test]
fn accepted_sheets_are_those_that_changes_reach() {
    let mut staged = settings();
    staged.retain(|settings| settings.kind == 1);
    assert_eq!(staged.len(), 1);
    for settings in staged {
        let reached = reached(&settings);
        for sheet in &reached {
            bits(&settings, sheet);
        }
        let accepted = Refused::by_formulas(&settings).accepted;
        assert_eq!(reached.len() as u64, accepted, "{settings:?}");
    }
}

#[test]
fn the_table_is_printed() {
    let table = table().unwrap();
    println!("{table}");
    assert_eq!(table.lines().count(), 2 + settings().len());
}

/// What a reading and a change of a sheet with these blocks answer, on both kinds.
fn answers(blocks: &str) -> Answer {
    let [plain, staged] = [accept(0, 4, 2, 27), accept(1, 4, 2, 36)].map(|settings| {
        let mut sheet = cells(blocks);
        sheet.resize(settings.n, 0);
        let (before, answer) = (sheet.clone(), read(&settings, &sheet, &mut [0; 4]));
        let changed = change(&settings, &mut sheet, 0);
        let refused = answer == Answer::BadSheet;
        assert_eq!(refused, changed == Answer::BadSheet, "{blocks}");
        assert!(!refused || sheet == before, "{blocks}");
        answer
    });
    assert_eq!(plain, staged);
    plain
}

#[test]
fn a_hole_is_refused() {
    for blocks in [
        "0000 1000",
        "0000 2222",
        "1000 0000 2222",
        "2222 0000 0000 0100",
        "2222 2222 0000 2222 2222 2222",
        "2222 2222 2222 2222 0000 0010",
        "1000 0100 0010 0001 0000 2222",
    ] {
        assert_eq!(answers(blocks), Answer::BadSheet, "{blocks}");
    }
    for blocks in ["", "2222", "0100", "2222 2222 2222 2222 2222 2222"] {
        assert!(matches!(answers(blocks), Answer::Done(_)), "{blocks}");
    }
}

#[test]
fn a_full_block_last_is_refused_after_all_bits() {
    for blocks in [
        "1000 0100 0010 0001 2222",
        "1000 0100 0010 0001 2222 2222",
        "2222 1000 0100 0010 0001 2222",
        "1000 2222 0100 0010 0001 2222",
    ] {
        assert_eq!(answers(blocks), Answer::BadSheet, "{blocks}");
    }
    for blocks in [
        "1000 0100 0010 2222",
        "1000 0100 0010 2222 2222 2222",
        "1000 0100 0010 0001",
        "1000 0100 0010 2222 0001",
        "2222 2222 1000 0100 0010 0001",
    ] {
        assert!(matches!(answers(blocks), Answer::Done(_)), "{blocks}");
    }
}

/// At stage 1 and up blocks may stand in any order.
#[test]
fn later_stages_have_no_such_rule() {
    let settings = accept(1, 4, 2, 28);
    let sheet = cells("0000 2222 0000 2222 01 02 10 11 22 22");
    assert_eq!((bits(&settings, &sheet), sum(&sheet)), (vec![0; 4], 30));
}

/// Every wrong reading of the two rules is told by the group that is made for them.
#[test]
fn the_group_tells_the_flaws() {
    for flaw in [
        Flaw::OrderIgnored,
        Flaw::StagedOrderIgnored,
        Flaw::HoleAccepted,
        Flaw::HoleBeforeFull,
        Flaw::FullLastAccepted,
        Flaw::LastByNumber,
        Flaw::FullLastNever,
    ] {
        group_tells("packed", flaw);
    }
}

/// As many blocks as there can be: all full, then with one empty block last, then with it first.
#[test]
fn the_widest_sheet() {
    let settings: Settings = accept(0, 2, 1, 16_384);
    let mut sheet = vec![1; settings.n];
    assert_eq!(bits(&settings, &sheet), [0, 0]);
    sheet[settings.n - 2..].fill(0);
    assert_eq!(bits(&settings, &sheet), [0, 0]);
    sheet.rotate_right(2);
    assert_eq!(read(&settings, &sheet, &mut [0; 2]), Answer::BadSheet);
}
