//! What the crate adds to the calls: views, set, errors, what is printed, the version.

mod common;

use common::{bits, levels, small, staged, with_block};
use harpginger::{Error, Kind, Settings, Sheet, View, VERSION};
use std::collections::BTreeSet;

/// What may be sent to and shared with other threads.
const fn shared<T: Send + Sync + Unpin + 'static>() {}

const _: () = {
    shared::<Error>();
    shared::<Kind>();
    shared::<Settings>();
    shared::<Sheet<'static>>();
    shared::<View<'static>>();
};

/// Sheets in every state that a call tells apart: genuine, full, and broken in each way.
fn sheets() -> Vec<(Settings, Vec<u8>)> {
    let plain = ["0000", "0100", "2221", "3110", "1103", "1100", "1111"];
    let mut sheets: Vec<_> = plain.map(|block| (small(), with_block(block))).into();
    sheets.extend([0, 1, 15, 17].map(|length| (small(), vec![3; length])));
    sheets.push((small(), vec![2; 16]));
    for text in [
        "1000 0100 0010 2222 | 00 00 00 00 00 00",
        "1010 0110 0010 2222 | 01 02 10 11 00 00",
        "1010 0110 0010 2222 | 01 02 10 11 00 03",
        "1000 0100 0010 2222 | 01 00 00 00 00 00",
        "2222 2222 2222 2222 | 00 00 00 00 00 00",
        "2222 2222 2222 2222 | 22 22 22 22 22 22",
        "0000",
    ] {
        sheets.push((staged(), levels(text)));
    }
    sheets
}

#[test]
fn threads_hold_sheets_of_their_own() {
    let run = || {
        let mut cells = [0; 28];
        let mut sheet = Sheet::erased(staged(), &mut cells).unwrap();
        (0..17).for_each(|bit| assert!(sheet.change(bit % 4).is_ok()));
        cells
    };
    let others: Vec<_> = (0..4).map(|_| std::thread::spawn(run)).collect();
    for other in others {
        assert_eq!(other.join().unwrap(), run());
    }
}

#[test]
fn a_view_reads_what_its_sheet_reads() {
    for (settings, mut cells) in sheets() {
        let lent = cells.clone();
        let view = View::over(settings, &lent);
        let sheet = Sheet::over(settings, &mut cells);
        assert_eq!(view.settings(), sheet.settings());
        assert_eq!(view.cells(), sheet.cells());
        assert_eq!(bits(view), bits(sheet.view()));
        let (mut of_view, mut of_sheet) = ([7; 6], [7; 6]);
        let ones = view.read_into(&mut of_view);
        assert_eq!(ones, sheet.read_into(&mut of_sheet));
        assert_eq!((ones, of_view), (view.ones(), of_sheet));
        (0..6).for_each(|bit| assert_eq!(view.bit(bit), sheet.bit(bit)));
        #[cfg(feature = "alloc")]
        assert_eq!(view.read(), sheet.read());
    }
}

#[test]
fn a_view_is_of_the_cells_themselves() {
    let cells = with_block("0100");
    // The cells are lent for as long as they live, and not for as long as the view does.
    let lent = View::over(small(), &cells).cells();
    assert!(std::ptr::eq(lent, cells.as_slice()));
}

#[test]
fn one_bit_is_that_of_the_reading() {
    for (settings, cells) in sheets() {
        let view = View::over(settings, &cells);
        if let Ok(bits) = bits(view) {
            for (bit, &value) in bits.iter().enumerate() {
                assert_eq!(view.bit(bit), Ok(value));
            }
        }
    }
}

/// Holds one `set` to a change of the same cells; the change's refusal, if there is one.
fn set_against_change(settings: Settings, cells: &[u8], bit: usize, value: bool) -> Option<Error> {
    let (mut set, mut changed) = (cells.to_vec(), cells.to_vec());
    let had = View::over(settings, cells).bit(bit);
    let by_set = Sheet::over(settings, &mut set).set(bit, value);
    let by_change = Sheet::over(settings, &mut changed).change(bit);
    if had == Ok(value) {
        assert_eq!((by_set, set.as_slice()), (Ok(0), cells));
        assert!(matches!(by_change, Ok(_) | Err(Error::Erase)));
    } else {
        assert_eq!((by_set, set), (by_change, changed));
    }
    by_change.err()
}

#[test]
fn set_refuses_as_change_does() {
    let mut refusals = BTreeSet::new();
    for (settings, cells) in sheets() {
        for bit in [0, 1, 2, 3, 4, 63, 64, usize::MAX] {
            for value in [false, true] {
                let refusal = set_against_change(settings, &cells, bit, value);
                refusals.extend(refusal.map(Error::number));
            }
        }
    }
    let every = [2, 4, 5, 6, 7];
    assert!(
        refusals.into_iter().eq(every),
        "a change gave every refusal"
    );
}

#[test]
fn the_order_of_refusals() {
    let order = |length: usize, bit, block: &str| {
        let mut cells = with_block(block);
        cells.resize(length, 0);
        Sheet::over(small(), &mut cells).set(bit, true)
    };
    assert_eq!(order(15, 4, "3110"), Err(Error::BadLength));
    assert_eq!(order(16, 4, "3110"), Err(Error::BadBit));
    assert_eq!(order(16, 4, "1100"), Err(Error::BadBit));
    assert_eq!(order(16, 3, "1130"), Err(Error::BadLevel(2)));
    assert_eq!(order(16, 3, "1100"), Err(Error::BadSheet));
}

#[test]
fn set_gives_the_value_and_raises_only_where_it_has_to() {
    let mut cells = [0; 28];
    let mut sheet = Sheet::erased(staged(), &mut cells).unwrap();
    for (bit, value, raised) in [
        (2, true, 1),
        (2, true, 0),
        (0, false, 0),
        (2, false, 1),
        (2, true, 1),
    ] {
        assert_eq!(sheet.set(bit, value), Ok(raised));
        assert_eq!(sheet.bit(bit), Ok(value));
    }
    assert_eq!(sheet.view().ones(), Ok(1));
}

#[test]
fn a_full_sheet_keeps_the_value_that_it_has() {
    let mut cells = [0; 4];
    let settings = Settings::accept(Kind::Plain, 2, 1, 4).unwrap();
    let mut sheet = Sheet::erased(settings, &mut cells).unwrap();
    for bit in [0, 1, 0] {
        assert_eq!(sheet.change(bit), Ok(1));
    }
    assert_eq!(sheet.set(0, false), Ok(0));
    assert_eq!(sheet.set(0, true), Err(Error::Erase));
}

#[test]
fn errors_in_words() {
    for (error, number, text) in [
        (Error::BadShape, 1, "a setting is outside the limits"),
        (
            Error::BadLength,
            2,
            "the sheet has another length than its settings",
        ),
        (
            Error::ShortOutput,
            3,
            "the output has fewer places than there are bits",
        ),
        (Error::BadBit, 4, "there is no bit of this number"),
        (Error::BadLevel(7), 5, "cell 7 is above the top level"),
        (Error::BadSheet, 6, "the sheet breaks the rules of its kind"),
        (
            Error::Erase,
            7,
            "no place for this bit before the sheet is erased",
        ),
        (
            Error::Unknown(9),
            9,
            "answer 9, which this crate does not know",
        ),
    ] {
        assert_eq!((error.number(), error.to_string().as_str()), (number, text));
        let boxed: Box<dyn std::error::Error + Send + Sync> = error.into();
        assert_eq!(boxed.downcast_ref(), Some(&error));
    }
}

#[test]
fn what_is_printed() {
    let settings = "Settings { kind: Staged, bits: 4, top: 2, cells: 28, blocks: 4, stages: 2, width: 2, guarantee: 17 }";
    assert_eq!(format!("{:?}", staged()), settings);
    let most = Settings::accept(Kind::Plain, 64, 15, 16_384).unwrap();
    let mut cells = vec![15; 16_384];
    let sheet = Sheet::over(most, &mut cells);
    assert_eq!(
        format!("{sheet:?}"),
        "Sheet { cells: 16384, sum_of_levels: 245760 }"
    );
    let view = sheet.view();
    assert_eq!(
        format!("{view:#?}"),
        "View { cells: 16384, sum_of_levels: 245760 }"
    );
}

#[test]
fn the_archive_has_the_version_of_this_crate() {
    assert_eq!(harpginger::version(), VERSION);
    assert_eq!(env!("CARGO_PKG_VERSION_MINOR").parse(), Ok(VERSION));
}
