//! Settings: which are accepted, what they guarantee, and where the index blocks stand.

use crate::Answer;
use std::ops::Range;

/// Accepted settings as one record, or zeros.
#[derive(Clone, Copy, Debug, Default, PartialEq, Eq)]
pub struct Settings {
    /// 0 plain, 1 staged.
    pub kind: usize,
    /// Bits, and cells of a block.
    pub k: usize,
    /// L, the top level of a cell.
    pub top: usize,
    /// Cells of the sheet.
    pub n: usize,
    /// Blocks of k cells.
    pub m: usize,
    /// Staged: 2^s = k. Plain: 0.
    pub s: usize,
    /// Staged: cells of an index block. Plain: 0.
    pub w: usize,
}

impl Settings {
    /// Accepts four numbers of any size, or refuses them with BadShape and zeros.
    pub fn accept(kind: u64, k: u64, top: u64, n: u64) -> (Answer, Settings) {
        match Settings::work_out(kind, k, top, n) {
            Some(settings) => (Answer::Done(settings.guarantee()), settings),
            None => (Answer::BadShape, Settings::default()),
        }
    }

    /// How many changes of an erased sheet are accepted before the first Erase, at least.
    /// 0 for a record that acceptance never gives.
    pub fn guarantee(&self) -> u64 {
        if !self.is_accepted() {
            return 0;
        }
        let lost = match self.kind {
            0 => self.k * self.top - 1,
            _ => 2 * self.top + self.s - 1,
        };
        (self.m * self.k * self.top - (self.k - 1) * lost) as u64
    }

    fn work_out(kind: u64, k: u64, top: u64, n: u64) -> Option<Settings> {
        if !(2..=64).contains(&k) || !(1..=255).contains(&top) || n > 16_384 {
            return None;
        }
        let (k, top, n) = (k as usize, top as usize, n as usize);
        let (kind, s, w) = match kind {
            0 if k * top % 2 == 0 => (0, 0, 0),
            1 if k >= 4 && k.is_power_of_two() => (1, k.trailing_zeros() as usize, width(k, top)),
            _ => return None,
        };
        let without_m = Settings {
            kind,
            k,
            top,
            n,
            m: 0,
            s,
            w,
        };
        let m = n.checked_sub(without_m.index_cells())? / k;
        (m >= k).then_some(Settings { m, ..without_m })
    }

    /// Whether acceptance gives this very record.
    pub(crate) fn is_accepted(&self) -> bool {
        let given = [self.kind, self.k, self.top, self.n].map(|number| number as u64);
        Settings::work_out(given[0], given[1], given[2], given[3]) == Some(*self)
    }

    /// I: the cells of all index blocks.
    pub(crate) fn index_cells(&self) -> usize {
        2 * (self.k - 1) * self.s.saturating_sub(1) * self.w
    }

    /// The cells of batch r, counted from 1.
    pub(crate) fn batch(&self, r: usize) -> Range<usize> {
        let size = 2 * (self.k - 1) * self.w;
        let first = self.m * self.k + (r - 1) * size;
        first..first + size
    }
}

/// The least w with (top + 1)^w at least k + 2.
fn width(k: usize, top: usize) -> usize {
    let (mut w, mut power) = (0, 1);
    while power < k + 2 {
        w += 1;
        power *= top + 1;
    }
    w
}
