//! A sheet as the pictures show it: its levels before and after a change, its blocks and its bits.

use crate::{change, read, Settings};
use std::ops::Range;

/// A sheet after one change, with the levels before it.
#[derive(Clone)]
pub struct Shown {
    /// Its settings.
    pub settings: Settings,
    /// The levels before the last change.
    pub before: Vec<u8>,
    /// The levels.
    pub cells: Vec<u8>,
    /// How many levels the last change raised.
    pub raised: u64,
    /// How many changes were made since the erase.
    pub changes: u64,
}

/// A parity block of a stage.
pub struct Parity {
    /// Its cells.
    pub cells: Range<usize>,
    /// The index block that it belongs to, by its number in the batch; none where it is full.
    pub slot: Option<usize>,
}

/// What an index block says.
#[derive(Clone, Copy, Debug, PartialEq, Eq)]
pub enum Index {
    /// All digits are at the top level.
    Full,
    /// The number 0.
    Free,
    /// The number of this bit and one more.
    Bit(usize),
}

impl Shown {
    /// An erased sheet of settings that must be accepted: kind, k, top level and n.
    pub fn erased([kind, k, top, n]: [u64; 4]) -> Shown {
        let (answer, settings) = Settings::accept(kind, k, top, n);
        assert_eq!(answer.number(), 0, "settings are accepted");
        let cells = vec![0; settings.n];
        Shown {
            settings,
            before: cells.clone(),
            cells,
            raised: 0,
            changes: 0,
        }
    }

    /// The same sheet once this bit is changed.
    pub fn changed(&self, bit: usize) -> Shown {
        let mut cells = self.cells.clone();
        let answer = change(&self.settings, &mut cells, bit);
        assert_eq!(answer.number(), 0, "a change of bit {bit} finds a place");
        Shown {
            settings: self.settings,
            before: self.cells.clone(),
            cells,
            raised: answer.value(),
            changes: self.changes + 1,
        }
    }

    /// The same sheet once these bits are changed, each so many times.
    pub fn changed_all(&self, changes: &[(usize, usize)]) -> Shown {
        let bits = changes.iter().flat_map(|&(bit, times)| vec![bit; times]);
        bits.fold(self.clone(), |sheet, bit| sheet.changed(bit))
    }

    /// The sheet with no change to show.
    pub fn at_rest(&self) -> Shown {
        Shown {
            before: self.cells.clone(),
            raised: 0,
            ..self.clone()
        }
    }

    /// The bits, bit 0 first.
    pub fn bits(&self) -> Vec<u8> {
        let mut bits = vec![0; self.settings.k];
        let answer = read(&self.settings, &self.cells, &mut bits);
        assert_eq!(answer.number(), 0, "the sheet is accepted");
        bits
    }

    /// The sum of the levels of these cells.
    pub fn weight(&self, cells: Range<usize>) -> u64 {
        crate::sum(&self.cells[cells])
    }

    /// The stage: the highest batch with a cell above 0, or 0.
    pub fn stage(&self) -> usize {
        let raised = |r: &usize| self.weight(self.settings.batch(*r)) > 0;
        (1..self.settings.s).rev().find(raised).unwrap_or(0)
    }

    /// The cells of block j of the m blocks.
    pub fn block(&self, j: usize) -> Range<usize> {
        j * self.settings.k..(j + 1) * self.settings.k
    }

    /// The cells of each index block of batch r, counted from 1.
    pub fn index_blocks(&self, r: usize) -> Vec<Range<usize>> {
        let Range { start, end } = self.settings.batch(r);
        let width = self.settings.w;
        let first = (start..end).step_by(width);
        first.map(|cell| cell..cell + width).collect()
    }

    /// What an index block says.
    pub fn index(&self, cells: Range<usize>) -> Index {
        let (digits, top) = (&self.cells[cells], self.settings.top);
        if self.is_full(digits) {
            return Index::Full;
        }
        let add = |number, &digit: &u8| number * (top + 1) + usize::from(digit);
        match digits.iter().fold(0, add) {
            0 => Index::Free,
            number => Index::Bit(number - 1),
        }
    }

    /// The parity blocks of stage r, each that isn't full with its index block of batch r.
    pub fn parity_blocks(&self, r: usize) -> Vec<Parity> {
        let blocks = self.index_blocks(r);
        let live =
            (0..blocks.len()).filter(|&slot| self.index(blocks[slot].clone()) != Index::Full);
        let (mut live, length) = (live, self.settings.k >> r);
        let first = (0..self.settings.m * self.settings.k).step_by(length);
        let pair = |cell| {
            let cells = cell..cell + length;
            let slot = match self.is_full(&self.cells[cells.clone()]) {
                true => None,
                false => live.next(),
            };
            Parity { cells, slot }
        };
        first.map(pair).collect()
    }

    /// Whether every one of these levels is the top level.
    pub fn is_full(&self, levels: &[u8]) -> bool {
        levels
            .iter()
            .all(|&level| usize::from(level) == self.settings.top)
    }
}

/// The bit that a block holds at stage 0, if it is active: the bit whose change raises it where it
/// stands alone on a plain sheet.
pub fn holder(settings: &Settings, block: &[u8]) -> Option<usize> {
    let (k, top) = (settings.k, settings.top);
    let mut alone = Shown::erased([0, k as u64, top as u64, (k * k) as u64]);
    alone.cells[..k].copy_from_slice(block);
    let active = block.iter().any(|&level| level > 0) && !alone.is_full(block);
    let raises = |bit: &usize| alone.changed(*bit).cells[..k] != *block;
    active.then(|| (0..k).find(raises)).flatten()
}
