//! Every assignment of levels for the tiniest settings, each read and each bit changed.
//!
//! Of the plain settings some have as many blocks as bits, and [0, 2, 1, 6] and [0, 2, 1, 8] have
//! more, so that a full block can stand after all k active ones. Of the staged settings, which have
//! too many cells, two blocks at a time take every assignment; they have as many blocks as bits, so
//! no full block can stand after all k active ones. `packed` has that, and every sequence of block
//! states.

use super::case::{Call, Case};
use super::comparison::Comparison;
use super::size::Size;
use crate::sheets::every;
use crate::Settings;

/// Plain settings whose every assignment of levels is run: the kind, k, L and n.
pub const PLAIN: [[u64; 4]; 7] = [
    [0, 2, 1, 4],
    [0, 2, 1, 5],
    [0, 2, 1, 6],
    [0, 2, 1, 8],
    [0, 2, 2, 4],
    [0, 2, 2, 5],
    [0, 3, 2, 9],
];

/// The tiniest plain settings with levels up to L, a few with levels above it, and the blocks and
/// the index blocks of the tiniest staged ones: two blocks, or one and a half in a light run.
pub fn tiny(comparison: &mut Comparison, size: Size) {
    for asked in PLAIN {
        let sheet = vec![0; asked[3] as usize];
        each_level(comparison, asked, &sheet, 0..sheet.len(), asked[2] as u8);
    }
    each_level(comparison, [0, 2, 1, 4], &[0; 4], 0..4, 3);
    each_level(comparison, [0, 2, 1, 5], &[0; 5], 0..5, 2);
    each_level(comparison, [0, 2, 2, 5], &[0; 5], 0..5, 3);
    if size == Size::Light {
        return staged(comparison, 6);
    }
    staged(comparison, 8);
    each_level(comparison, [0, 2, 255, 4], &[0; 4], 0..2, 255);
}

/// So many cells of blocks at stage 0, before and after others, and at stage 1, and of index blocks
/// beside fitting and unfitting blocks.
fn staged(comparison: &mut Comparison, cells: usize) {
    let asked = [1, 4, 2, 28];
    for [before, after] in [
        [&[2, 2, 2, 2][..], &[0, 0, 0, 0]],
        [&[0, 0, 1, 0, 2, 2, 2, 2], &[]],
        [&[], &[2, 2, 2, 2, 0, 0, 1, 0]],
        [&[], &[0, 0, 0, 0, 2, 2, 2, 2]],
    ] {
        let sheet = [before, &[0; 8], after, &[0; 12]].concat();
        let first = before.len();
        each_level(comparison, asked, &sheet, first..first + cells, 2);
    }
    for index in [[0, 1, 0, 2], [0, 0, 1, 1], [1, 0, 2, 2], [0, 0, 0, 0]] {
        let sheet = [&[2; 16][..], &index, &[2; 8]].concat();
        each_level(comparison, asked, &sheet, 4..4 + cells, 2);
    }
    for blocks in [[1, 2, 0, 0], [2, 2, 1, 0], [2, 2, 2, 2]] {
        let sheet = [&[2; 8][..], &blocks, &[2; 16]].concat();
        each_level(comparison, asked, &sheet, 18..18 + cells, 2);
    }
}

/// Every assignment of levels up to the top one to these cells: read, and each bit changed, that
/// after the last too.
fn each_level(
    comparison: &mut Comparison,
    asked: [u64; 4],
    sheet: &[u8],
    cells: std::ops::Range<usize>,
    highest: u8,
) {
    let settings = Settings::asked(asked);
    let mut case = Case::on(Call::Read, &settings, sheet);
    for levels in every(cells.len(), highest) {
        case.sheet[cells.clone()].copy_from_slice(&levels);
        case.call = Call::Read;
        comparison.compare(&case);
        case.call = Call::Change;
        for bit in 0..=settings.k {
            case.bit = bit;
            comparison.compare(&case);
        }
    }
}
