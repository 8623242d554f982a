//! The numbers of the rules, each with what the rules say of it.

use super::case::{Call, Case};
use super::comparison::Comparison;
use super::library::Reply;
use crate::Settings;

/// Every number of the rules, marked or not.
pub fn numbers(comparison: &mut Comparison) {
    for (asked, guarantee) in GUARANTEES {
        settings_give(comparison, asked, Some(guarantee));
    }
    for asked in REFUSED {
        settings_give(comparison, asked, None);
    }
    for (block, bit, value, next) in CYCLES {
        on_a_cycle(comparison, block, bit, value, next);
    }
    for block in ["1100", "2020", "1111"] {
        on_no_cycle(comparison, block);
    }
    staged_of_28(comparison);
}

const GUARANTEES: [([usize; 4], usize); 8] = [
    ([0, 2, 1, 4], 3),
    ([0, 3, 2, 9], 8),
    ([0, 4, 2, 16], 11),
    ([0, 4, 2, 19], 11),
    ([0, 4, 2, 20], 19),
    ([1, 4, 2, 28], 17),
    ([0, 64, 15, 16_384], 185_343),
    ([1, 64, 15, 16_384], 224_355),
];

const REFUSED: [[usize; 4]; 4] = [[0, 2, 1, 3], [0, 3, 1, 9], [0, 3, 1, 10], [1, 4, 2, 27]];

/// A block of k = 4, L = 2; its bit and value; its next step.
const CYCLES: [(&str, usize, u8, &str); 5] = [
    ("2221", 0, 1, "2222"),
    ("1222", 1, 1, "2222"),
    ("0220", 1, 0, "0221"),
    ("2022", 2, 0, "2122"),
    ("2002", 3, 0, "2102"),
];

/// The cells of a row of digits; other signs only separate.
fn cells(digits: &str) -> Vec<u8> {
    let digits = digits.bytes().filter(u8::is_ascii_digit);
    digits.map(|digit| digit - b'0').collect()
}

/// Compares the case, and holds the reply to what the rules say.
fn says(comparison: &mut Comparison, case: &Case, answer: usize, value: usize) {
    let reply = comparison.compare(case);
    let said = Some(Reply { answer, value });
    comparison.require(reply.is_none() || reply == said, case, || {
        format!("the rules say {said:?}, not {reply:?}")
    });
}

/// The settings are accepted with this guarantee, or refused with a record of zeros.
fn settings_give(comparison: &mut Comparison, asked: [usize; 4], guarantee: Option<usize>) {
    let case = Case::settings(asked);
    match guarantee {
        Some(guarantee) => says(comparison, &case, 0, guarantee),
        None => says(comparison, &case, 1, 0),
    }
    let zeros = comparison.record() == [0; 7];
    comparison.require(zeros == guarantee.is_none(), &case, || {
        String::from("a record is of zeros where the settings are refused, and only there")
    });
}

/// The settings and sheets with the block at each place, full blocks before it and empty ones after.
fn at_each_place(block: &str) -> (Settings, Vec<(usize, Vec<u8>)>) {
    let settings = Settings::asked([0, 4, 2, 16]);
    let sheet_of = |place| {
        let first = place * settings.k;
        let mut sheet = vec![0; settings.n];
        sheet[..first].fill(settings.top as u8);
        sheet[first..first + settings.k].copy_from_slice(&cells(block));
        (first, sheet)
    };
    (settings, (0..settings.m).map(sheet_of).collect())
}

/// At each place of the sheet the block holds its bit and value, and takes its next step.
fn on_a_cycle(comparison: &mut Comparison, block: &str, bit: usize, value: u8, next: &str) {
    let (settings, sheets) = at_each_place(block);
    for (first, mut sheet) in sheets {
        let mut case = Case::on(Call::Read, &settings, &sheet);
        says(comparison, &case, 0, value.into());
        let mut bits = [0; 4];
        bits[bit] = value;
        let holds = comparison.output() == bits;
        comparison.require(holds, &case, || format!("{block} reads {bits:?}"));
        (case.call, case.bit) = (Call::Change, bit);
        says(comparison, &case, 0, 1);
        sheet[first..first + 4].copy_from_slice(&cells(next));
        let holds = comparison.sheet() == sheet;
        comparison.require(holds, &case, || format!("{block} goes on to {next}"));
    }
}

/// The block is BadSheet for both calls.
fn on_no_cycle(comparison: &mut Comparison, block: &str) {
    let (settings, sheets) = at_each_place(block);
    for (_, sheet) in sheets {
        for call in [Call::Read, Call::Change] {
            says(comparison, &Case::on(call, &settings, &sheet), 6, 0);
        }
    }
}

/// The move on the staged sheet of 28, and bit 1 four times from there.
fn staged_of_28(comparison: &mut Comparison) {
    let settings = Settings::asked([1, 4, 2, 28]);
    let sheet = cells("1000 0100 0010 2222 00 00 00 00 00 00");
    let mut case = Case::on(Call::Change, &settings, &sheet);
    let steps = [
        (3, 8, "1010 0110 0010 2222 01 02 10 11 00 00"),
        (1, 1, "1020 0110 0010 2222 01 02 10 11 00 00"),
        (1, 1, "1021 0110 0010 2222 01 02 10 11 00 00"),
        (1, 3, "1022 0110 0010 2222 01 22 10 11 00 00"),
        (1, 3, "1022 0110 1010 2222 01 22 10 11 02 00"),
    ];
    for (bit, raised, after) in steps {
        (case.call, case.bit) = (Call::Change, bit);
        says(comparison, &case, 0, raised);
        let holds = comparison.sheet() == cells(after);
        comparison.require(holds, &case, || format!("the sheet becomes {after}"));
        case.sheet = cells(after);
        case.call = Call::Read;
        comparison.compare(&case);
    }
    case.sheet = cells(steps[0].2);
    says(comparison, &case, 0, 4);
}
