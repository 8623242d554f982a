//! In which order the cells of a change are written, and after what the power can be cut.

use super::change::Change;

/// An order of the cells that a change moves.
#[derive(Clone, Copy, Debug, PartialEq, Eq)]
pub enum Order {
    /// By cell number.
    Ascending,
    /// By cell number, the last first.
    Descending,
    /// The index blocks that do not end full, the m blocks, the index blocks that end full.
    Writing,
}

impl Order {
    /// Every order.
    pub const ALL: [Order; 3] = [Order::Ascending, Order::Descending, Order::Writing];

    /// Its name in tables.
    pub fn name(self) -> &'static str {
        match self {
            Order::Ascending => "ascending",
            Order::Descending => "descending",
            Order::Writing => "order of writing",
        }
    }

    /// The cells of a change in this order.
    pub fn cells(self, change: &Change) -> Vec<usize> {
        let mut cells = change.moved.clone();
        match self {
            Order::Ascending => {}
            Order::Descending => cells.reverse(),
            Order::Writing => cells.sort_by_key(|&cell| turn(change, cell)),
        }
        cells
    }
}

/// Which of the three parts of the order of writing a cell belongs to.
fn turn(change: &Change, cell: usize) -> usize {
    if change.in_blocks(cell) {
        1
    } else if change.ends_full(cell) {
        2
    } else {
        0
    }
}

/// What is written at once, so that the power is cut before it or after it.
#[derive(Clone, Copy, Debug, PartialEq, Eq)]
pub enum Grain {
    /// A cell, from its old level to its new one.
    Cell,
    /// A level of a cell.
    Level,
}

impl Grain {
    /// Both grains.
    pub const ALL: [Grain; 2] = [Grain::Cell, Grain::Level];

    /// Its name in tables.
    pub fn name(self) -> &'static str {
        match self {
            Grain::Cell => "cells",
            Grain::Level => "levels",
        }
    }

    /// The level one write nearer to the end, from below or from above.
    pub fn nearer(self, level: u8, end: u8) -> u8 {
        match self {
            Grain::Cell => end,
            Grain::Level if level < end => level + 1,
            Grain::Level => level - 1,
        }
    }

    /// The writes of a change in an order: which cell, and the level that it then has.
    pub fn writes(self, change: &Change, order: Order) -> Vec<(usize, u8)> {
        let of_cell = |cell: usize| {
            let (old, new) = (change.before[cell], change.after[cell]);
            let levels = match self {
                Grain::Cell => new..=new,
                Grain::Level => old + 1..=new,
            };
            levels.map(move |level| (cell, level))
        };
        order.cells(change).into_iter().flat_map(of_cell).collect()
    }
}
