//! What sort of change lies between two sheets.

use super::change::Change;
use crate::places::stage;
use second::Settings;

/// A sort of change.
#[derive(Clone, Copy, Debug, PartialEq, Eq)]
pub enum Sort {
    /// A block's next step, or the first step of an empty block: one level of one cell.
    Step,
    /// A parity block fills, and its index block with it.
    Fills,
    /// A free parity block of even weight is taken: its index block is written, and the block raised.
    Even,
    /// A free parity block of odd weight is taken: its index block is written.
    Odd,
    /// A move with fewer than 2(k - 1) live parity blocks.
    MoveOfFewer,
    /// A move with 2(k - 1) live parity blocks: each index block has one.
    MoveOfAll,
}

impl Sort {
    /// Every sort.
    pub const ALL: [Sort; 6] = [
        Sort::Step,
        Sort::Fills,
        Sort::Even,
        Sort::Odd,
        Sort::MoveOfFewer,
        Sort::MoveOfAll,
    ];

    /// Its name in tables.
    pub fn name(self) -> &'static str {
        match self {
            Sort::Step => "a step of a block",
            Sort::Fills => "a block that fills",
            Sort::Even => "a free block of even weight taken",
            Sort::Odd => "a free block of odd weight taken",
            Sort::MoveOfFewer => "a move, fewer than 2(k - 1) live blocks",
            Sort::MoveOfAll => "a move, 2(k - 1) live blocks",
        }
    }

    /// Whether a torn sheet may read a third thing in the order of writing.
    pub fn may_be_third(self) -> bool {
        matches!(self, Sort::Odd | Sort::MoveOfAll)
    }

    /// The sort of a change, by its two sheets.
    pub fn of(change: &Change) -> Sort {
        if change.settings.kind == 1 {
            let from = stage(change.settings, change.before);
            let to = stage(change.settings, change.after);
            if from < to {
                return of_move(change, to);
            }
        }
        within_stage(change)
    }
}

/// The sort of a change that stays at its stage.
fn within_stage(change: &Change) -> Sort {
    let index_cell = change.moved.iter().find(|&&cell| !change.in_blocks(cell));
    match index_cell {
        None => Sort::Step,
        Some(&cell) if change.ends_full(cell) => Sort::Fills,
        Some(_) if change.in_blocks(change.moved[0]) => Sort::Even,
        Some(_) => Sort::Odd,
    }
}

/// The sort of a move to this stage.
fn of_move(change: &Change, to: usize) -> Sort {
    let Settings { k, m, top, .. } = *change.settings;
    let is_live = |block: &&[u8]| block.iter().any(|&level| usize::from(level) < top);
    let blocks = change.before[..m * k].chunks_exact(k >> to);
    let live = blocks.filter(is_live).count();
    assert!((k..=2 * (k - 1)).contains(&live), "live blocks of a move");
    match live < 2 * (k - 1) {
        true => Sort::MoveOfFewer,
        false => Sort::MoveOfAll,
    }
}
