//! The numbers of the exact rules, through the compiled library.

mod common;

use common::{bits, levels, small, staged, with_block};
use harpginger::{Error, Kind, Settings, Sheet};

fn guarantee(kind: Kind, k: usize, top: usize, n: usize) -> Result<u64, Error> {
    Settings::accept(kind, k, top, n).map(|settings| settings.guarantee())
}

#[test]
fn plain_guarantees() {
    assert_eq!(guarantee(Kind::Plain, 2, 1, 4), Ok(3));
    assert_eq!(guarantee(Kind::Plain, 2, 1, 3), Err(Error::BadShape));
    assert_eq!(guarantee(Kind::Plain, 3, 1, 9), Err(Error::BadShape));
    assert!(guarantee(Kind::Plain, 3, 2, 9).is_ok());
    assert_eq!(guarantee(Kind::Plain, 4, 2, 16), Ok(11));
    assert_eq!(guarantee(Kind::Plain, 4, 2, 19), Ok(11));
    assert_eq!(guarantee(Kind::Plain, 4, 2, 20), Ok(19));
    assert_eq!(guarantee(Kind::Plain, 64, 15, 16_384), Ok(185_343));
}

#[test]
fn staged_settings() {
    let settings = staged();
    assert_eq!(settings.kind(), Kind::Staged);
    assert_eq!((settings.bits(), settings.top()), (4, 2));
    assert_eq!((settings.cells(), settings.blocks()), (28, 4));
    assert_eq!((settings.stages(), settings.width()), (2, 2));
    assert_eq!(settings.guarantee(), 17);
    assert_eq!(guarantee(Kind::Staged, 4, 2, 27), Err(Error::BadShape));
    assert_eq!(guarantee(Kind::Staged, 64, 15, 16_384), Ok(224_355));
}

#[test]
fn settings_of_any_size_are_refused() {
    let most = usize::MAX;
    for (k, top, n) in [(most, 1, 4), (2, most, 4), (2, 1, most), (most, most, most)] {
        assert_eq!(guarantee(Kind::Plain, k, top, n), Err(Error::BadShape));
        assert_eq!(guarantee(Kind::Staged, k, top, n), Err(Error::BadShape));
    }
}

#[test]
fn blocks_of_a_cycle() {
    for (block, bit, value, next) in [
        ("2221", 0, true, "2222"),
        ("1222", 1, true, "2222"),
        ("0220", 1, false, "0221"),
        ("2022", 2, false, "2122"),
        ("2002", 3, false, "2102"),
    ] {
        let mut cells = with_block(block);
        let mut sheet = Sheet::over(small(), &mut cells);
        assert_eq!(bits(sheet.view()).unwrap()[bit], value, "{block}");
        assert_eq!(sheet.change(bit), Ok(1), "{block}");
        assert_eq!(sheet.cells(), with_block(next), "{block}");
    }
}

#[test]
fn blocks_off_every_cycle() {
    for block in ["1100", "2020", "1111"] {
        let mut cells = with_block(block);
        let mut sheet = Sheet::over(small(), &mut cells);
        assert_eq!(bits(sheet.view()), Err(Error::BadSheet), "{block}");
        assert_eq!(sheet.change(0), Err(Error::BadSheet), "{block}");
        assert_eq!(cells, with_block(block));
    }
}

#[test]
fn a_move_and_what_follows() {
    let mut cells = levels("1000 0100 0010 2222 | 00 00 00 00 00 00");
    let mut sheet = Sheet::over(staged(), &mut cells);
    assert_eq!(sheet.change(3), Ok(8));
    assert_eq!(
        sheet.cells(),
        levels("1010 0110 0010 2222 | 01 02 10 11 00 00")
    );
    assert_eq!(bits(sheet.view()), Ok(vec![true; 4]));
    for (raised, after) in [
        (1, "1020 0110 0010 2222 | 01 02 10 11 00 00"),
        (1, "1021 0110 0010 2222 | 01 02 10 11 00 00"),
        (3, "1022 0110 0010 2222 | 01 22 10 11 00 00"),
        (3, "1022 0110 1010 2222 | 01 22 10 11 02 00"),
    ] {
        assert_eq!(sheet.change(1), Ok(raised));
        assert_eq!(sheet.cells(), levels(after));
    }
}

#[test]
fn refusals_in_order_change_nothing() {
    let mut cells = with_block("3110");
    let mut out = [7; 4];
    let mut sheet = Sheet::over(small(), &mut cells);
    assert_eq!(sheet.read_into(&mut out[..3]), Err(Error::ShortOutput));
    assert_eq!(sheet.read_into(&mut out), Err(Error::BadLevel(0)));
    assert_eq!(sheet.change(4), Err(Error::BadBit));
    assert_eq!(sheet.change(3), Err(Error::BadLevel(0)));
    assert_eq!((cells, out), (with_block("3110"), [7; 4]));
}

#[test]
fn sheets_of_another_length() {
    for length in [0, 15, 17] {
        let mut cells = vec![1; length];
        let mut sheet = Sheet::over(small(), &mut cells);
        assert_eq!(sheet.erase(), Err(Error::BadLength));
        assert_eq!(bits(sheet.view()), Err(Error::BadLength));
        assert_eq!(sheet.change(usize::MAX), Err(Error::BadLength));
        assert_eq!(cells, vec![1; length]);
    }
}

#[test]
fn a_reading_ends_after_the_bits() {
    let mut cells = with_block("0001");
    let mut out = [7; 6];
    let ones = Sheet::over(small(), &mut cells).read_into(&mut out);
    assert_eq!((ones, out), (Ok(1), [0, 0, 0, 1, 7, 7]));
}

#[test]
fn erase_comes_after_the_guarantee() {
    for settings in [small(), staged()] {
        let mut cells = vec![1; settings.cells()];
        let mut sheet = Sheet::erased(settings, &mut cells).unwrap();
        let (mut accepted, mut bit) = (0, 0);
        while sheet.change(bit).is_ok() {
            accepted += 1;
            bit = (bit + 1) % settings.bits();
        }
        assert_eq!(sheet.change(bit), Err(Error::Erase));
        assert!(accepted >= settings.guarantee());
    }
}
