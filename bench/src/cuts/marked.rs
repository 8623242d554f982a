//! The move among the marked numbers of the rules, cut at every place and in every order.

use super::change::Change;
use super::reader::{Bits, Reader};
use super::sort::Sort;
use super::tally::Tally;
use super::torn::{Reading, Torn};
use crate::places::settings;
use second::Settings;

/// The blocks before the move; the index cells are 0.
const BLOCKS: [u8; 16] = [1, 0, 0, 0, 0, 1, 0, 0, 0, 0, 1, 0, 2, 2, 2, 2];

/// The bit that is changed.
const BIT: usize = 3;

/// What was found of the marked move.
pub struct Marked {
    /// Its settings.
    pub settings: Settings,
    /// Its sort.
    pub sort: Sort,
    /// What was counted of it.
    pub tally: Tally,
    /// The bits before it and after it.
    pub whole: [Bits; 2],
    /// The sheets before it and after it.
    pub sheets: [Vec<u8>; 2],
    /// The torn sheet with the fewest levels raised that reads a third thing, and its bits.
    pub torn: Option<(Vec<u8>, Bits)>,
    /// How many readings differed from the second program's.
    pub differing: u64,
    /// How many were compared.
    pub compared: u64,
}

/// Makes the marked move and cuts it.
pub fn measure() -> Marked {
    let settings = settings(1, [4, 2, 28]).expect("settings are accepted");
    let mut reader = Reader::new(&settings);
    let mut before = vec![0; settings.n];
    before[..BLOCKS.len()].copy_from_slice(&BLOCKS);
    let mut after = before.clone();
    let reply = reader.library().change(&mut after, BIT);
    assert_eq!((reply.answer, reply.value), (0, 8), "the marked numbers");
    let change = Change::new(&settings, &before, &after);
    let mut tally = Tally::default();
    tally.count(&change, &mut reader);
    let mut torn = Torn::new(&change, &mut reader);
    let (whole, smallest) = ([torn.old, torn.new], smallest(&mut torn));
    Marked {
        settings,
        sort: Sort::of(&change),
        tally,
        whole,
        torn: smallest,
        differing: reader.differing,
        compared: reader.compared,
        sheets: [before, after],
    }
}

/// Of all torn sheets that read a third thing, the one with the fewest levels raised; of several, the one that raises the lowest cells.
fn smallest(torn: &mut Torn) -> Option<(Vec<u8>, Bits)> {
    let mut sheets = sheets(torn.change);
    sheets.sort_by_key(|sheet| {
        let raised: u32 = sheet.iter().map(|&level| u32::from(level)).sum();
        (raised, std::cmp::Reverse(sheet.clone()))
    });
    let found = sheets
        .into_iter()
        .find(|sheet| torn.reading(sheet) == Reading::Third)?;
    let bits = torn.bits(&found)?;
    Some((found, bits))
}

/// All sheets between the two of a change, both included.
fn sheets(change: &Change) -> Vec<Vec<u8>> {
    let mut sheets = vec![change.before.to_vec()];
    for &cell in &change.moved {
        let raised = |sheet: Vec<u8>| {
            (change.before[cell]..=change.after[cell]).map(move |level| {
                let mut sheet = sheet.clone();
                sheet[cell] = level;
                sheet
            })
        };
        sheets = sheets.into_iter().flat_map(raised).collect();
    }
    sheets
}
