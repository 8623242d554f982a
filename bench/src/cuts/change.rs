//! One change: the sheet before it and the sheet after it, and the cells that it moves.

use second::Settings;

/// Cells are first compared so many at once, as most changes move one.
const AT_ONCE: usize = 64;

/// A change that was accepted.
pub struct Change<'a> {
    /// The settings.
    pub settings: &'a Settings,
    /// The sheet before it.
    pub before: &'a [u8],
    /// The sheet after it.
    pub after: &'a [u8],
    /// The cells that it raises, ascending.
    pub moved: Vec<usize>,
}

impl<'a> Change<'a> {
    /// The change between two sheets, of which the second is nowhere lower.
    pub fn new(settings: &'a Settings, before: &'a [u8], after: &'a [u8]) -> Change<'a> {
        let parts = before.chunks(AT_ONCE).zip(after.chunks(AT_ONCE));
        let differing = (0..).zip(parts).filter(|(_, (old, new))| old != new);
        let cells =
            differing.flat_map(|(part, (old, _))| part * AT_ONCE..part * AT_ONCE + old.len());
        let moved: Vec<usize> = cells.filter(|&cell| before[cell] != after[cell]).collect();
        let rises = moved.iter().all(|&cell| before[cell] < after[cell]);
        assert!(rises && !moved.is_empty(), "a change raises cells");
        Change {
            settings,
            before,
            after,
            moved,
        }
    }

    /// Whether this cell is one of the m blocks.
    pub fn in_blocks(&self, cell: usize) -> bool {
        cell < self.settings.m * self.settings.k
    }

    /// Whether the index block of this cell ends full.
    pub fn ends_full(&self, cell: usize) -> bool {
        let Settings { k, m, w, top, .. } = *self.settings;
        let first = cell - (cell - m * k) % w;
        let digits = &self.after[first..first + w];
        digits.iter().all(|&digit| usize::from(digit) == top)
    }
}
