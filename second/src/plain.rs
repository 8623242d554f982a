//! The plain rules, section III: stage 0 of either kind.

use crate::{sum, Answer, Flaw, Settings};

/// A sheet at stage 0: what each of the m blocks is.
pub struct Whole {
    blocks: Vec<Block>,
}

/// What a block of k cells is.
#[derive(Clone, Copy, PartialEq)]
pub enum Block {
    /// All 0.
    Empty,
    /// A step of the cycle that starts at cell number `bit`.
    Active { bit: usize, weight: usize },
    /// All at the top level.
    Full,
}

impl Whole {
    /// The m blocks, if each is empty, full or on a cycle, no two active ones have one bit, and
    /// they stand in a right order.
    pub fn decode(settings: &Settings, sheet: &[u8]) -> Result<Whole, Answer> {
        let mut taken = vec![false; settings.k];
        let mut blocks = Vec::with_capacity(settings.m);
        for cells in sheet.chunks_exact(settings.k).take(settings.m) {
            let block = Block::decode(settings.top, cells)?;
            if let Block::Active { bit, .. } = block {
                if taken[bit] {
                    return Err(Answer::BadSheet);
                }
                taken[bit] = true;
            }
            blocks.push(block);
        }
        let whole = Whole { blocks };
        match whole.is_in_order(settings) {
            true => Ok(whole),
            false => Err(Answer::BadSheet),
        }
    }

    /// Whether neither rule about the order of blocks is broken.
    fn is_in_order(&self, settings: &Settings) -> bool {
        let staged = settings.kind == 1;
        if Flaw::OrderIgnored.is_on() || (staged && Flaw::StagedOrderIgnored.is_on()) {
            return true;
        }
        !self.has_hole() && !self.ends_full(settings.k)
    }

    /// The blocks that the two rules about their order go through.
    fn in_order(&self) -> impl DoubleEndedIterator<Item = Block> + '_ {
        self.blocks.iter().copied()
    }

    /// Whether an empty block stands before one that isn't empty.
    fn has_hole(&self) -> bool {
        let is_used = |block: Block| match Flaw::HoleBeforeFull.is_on() {
            false => block != Block::Empty,
            true => block.is_active(),
        };
        let mut blocks = self.in_order();
        let empty = blocks.any(|block| block == Block::Empty);
        empty && blocks.any(is_used) && !Flaw::HoleAccepted.is_on()
    }

    /// Whether all k bits have active blocks and the last block that isn't empty is full.
    fn ends_full(&self, k: usize) -> bool {
        let active = self.in_order().filter(|block| block.is_active()).count();
        let mut from_the_end = self.in_order().rev();
        let last = match Flaw::LastByNumber.is_on() {
            false => from_the_end.find(|block| *block != Block::Empty),
            true => from_the_end.next(),
        };
        let all_active = active == k || Flaw::FullLastNever.is_on();
        all_active && last == Some(Block::Full) && !Flaw::FullLastAccepted.is_on()
    }

    /// Writes the parity of each bit that has an active block.
    pub fn write_bits(&self, bits: &mut [u8]) {
        for block in &self.blocks {
            if let Block::Active { bit, weight } = *block {
                bits[bit] = (weight % 2) as u8;
            }
        }
    }

    /// The next step of the bit's block, else the lowest-numbered empty block; or answers false
    /// and changes nothing.
    pub fn change(&mut self, changed: usize) -> bool {
        for block in &mut self.blocks {
            match block {
                Block::Active { bit, weight } if *bit == changed => {
                    *weight += 1; // a weight of k top encodes as a full block
                    return true;
                }
                _ => {}
            }
        }
        let mut empty = self
            .blocks
            .iter_mut()
            .filter(|block| **block == Block::Empty);
        let mut found = empty.next();
        if Flaw::SecondEmpty.is_on() {
            found = empty.next().or(found);
        }
        let Some(block) = found else {
            return false;
        };
        let (bit, weight) = (changed, 1);
        *block = Block::Active { bit, weight };
        true
    }

    /// Writes the m blocks.
    pub fn encode(&self, settings: &Settings, sheet: &mut [u8]) {
        for (block, cells) in self.blocks.iter().zip(sheet.chunks_exact_mut(settings.k)) {
            block.encode(settings.top, cells);
        }
    }
}

impl Block {
    fn is_active(self) -> bool {
        matches!(self, Block::Active { .. })
    }

    /// The block of these cells, if it is empty, full or on a cycle.
    pub fn decode(top: usize, cells: &[u8]) -> Result<Block, Answer> {
        let weight = sum(cells) as usize;
        if weight == 0 {
            return Ok(Block::Empty);
        }
        if weight == cells.len() * top {
            return Ok(Block::Full);
        }
        let bit = start(cells).ok_or(Answer::BadSheet)?;
        let mut cycle = cells[bit..].iter().chain(&cells[..bit]).enumerate();
        match cycle.all(|(j, &level)| level == step_level(top, weight, j)) {
            true => Ok(Block::Active { bit, weight }),
            false => Err(Answer::BadSheet),
        }
    }

    fn encode(self, top: usize, cells: &mut [u8]) {
        match self {
            Block::Empty => cells.fill(0),
            Block::Full => cells.fill(top as u8),
            Block::Active { bit, weight } => {
                let (end, begin) = cells.split_at_mut(bit);
                for (j, cell) in begin.iter_mut().chain(end).enumerate() {
                    *cell = step_level(top, weight, j);
                }
            }
        }
    }
}

/// The level of cell j of a cycle, counted from its start: the part of weight - j top that lies
/// between 0 and top.
fn step_level(top: usize, weight: usize, j: usize) -> u8 {
    weight.saturating_sub(j * top).min(top) as u8
}

/// Where the cycle starts, if the cells are on one: levels never rise along it, so the start is
/// the one cell above the cell before it, modulo k.
fn start(cells: &[u8]) -> Option<usize> {
    if Flaw::FirstRaisedStart.is_on() {
        return cells.iter().position(|&level| level > 0);
    }
    if cells[0] > cells[cells.len() - 1] {
        return Some(0);
    }
    (1..cells.len()).find(|&i| cells[i] > cells[i - 1])
}
