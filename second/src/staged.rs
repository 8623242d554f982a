//! The staged rules, section IV: stage 1 and up.

use crate::{sum, Answer, Flaw, Settings};
use std::ops::Range;

/// A sheet at stage 1 or above.
pub struct Cut {
    /// The stage, from 1.
    pub stage: usize,
    /// Cells of a parity block.
    length: usize,
    top: u8,
    /// The number of an index block that is full.
    full_index: usize,
    /// The cells of all parity blocks.
    cells: Vec<u8>,
    /// The parity blocks that weren't full when the cells were cut.
    live: Vec<Live>,
}

/// A live parity block and its index block.
#[derive(Default)]
struct Live {
    /// The parity block's number.
    block: usize,
    /// The index block's number in the batch.
    slot: usize,
    /// 0 free, u for bit u - 1, `full_index` once the block has filled.
    index: usize,
}

impl Cut {
    /// The m blocks cut for this stage, the live ones still without their index blocks.
    fn new(settings: &Settings, sheet: &[u8], stage: usize) -> Cut {
        let mut cut = Cut {
            stage,
            length: settings.k >> stage,
            top: settings.top as u8,
            full_index: (settings.top + 1).pow(settings.w as u32) - 1,
            cells: sheet[..settings.m * settings.k].to_vec(),
            live: Vec::new(),
        };
        for (block, levels) in cut.cells.chunks_exact(cut.length).enumerate() {
            if levels.iter().any(|&level| level < cut.top) {
                cut.live.push(Live {
                    block,
                    ..Live::default()
                });
            }
        }
        cut
    }

    /// The sheet at this stage, if its live blocks and its live indexes fit.
    pub fn decode(settings: &Settings, sheet: &[u8], stage: usize) -> Result<Cut, Answer> {
        let mut cut = Cut::new(settings, sheet, stage);
        let mut unpaired = cut.live.iter_mut();
        let mut taken = vec![false; settings.k + 1];
        let batch = sheet[settings.batch(stage)].chunks_exact(settings.w);
        for (slot, digits) in batch.enumerate() {
            let index = number(settings.top, digits);
            if index == cut.full_index {
                continue;
            }
            if index > settings.k || (index > 0 && taken[index]) {
                return Err(Answer::BadSheet);
            }
            taken[index] = true;
            let live = unpaired.next().ok_or(Answer::BadSheet)?;
            (live.slot, live.index) = (slot, index);
        }
        match unpaired.next() {
            None => Ok(cut),
            Some(_) => Err(Answer::BadSheet),
        }
    }

    /// Cuts for the first stage after this one that has at least k live parity blocks.
    pub fn later(settings: &Settings, sheet: &[u8], stage: usize) -> Option<Cut> {
        for later in stage + 1..settings.s {
            let cut = Cut::new(settings, sheet, later);
            if cut.live.len() >= settings.k {
                return Some(cut);
            }
            if Flaw::StopAtFirst.is_on() {
                return None;
            }
        }
        None
    }

    /// The move to this stage, with the bits as they were; it is the change of the one bit too.
    pub fn move_here(&mut self, mut bits: Vec<u8>, changed: usize) {
        if Flaw::OldBitsAtMove.is_on() {
            self.record(&bits);
            self.change(changed);
            return;
        }
        bits[changed] ^= 1;
        self.record(&bits);
    }

    /// Gives the first index blocks to the live blocks, in order, and the first k live blocks
    /// to the k bits. What stays of the batch encodes as full.
    fn record(&mut self, bits: &[u8]) {
        for j in 0..self.live.len() {
            self.live[j].slot = j;
            if j < bits.len() {
                self.live[j].index = j + 1;
                if self.parity(j) != bits[j] {
                    self.raise(j);
                }
            }
        }
    }

    /// Writes the parity of each bit that an index names.
    pub fn write_bits(&self, bits: &mut [u8]) {
        let mut named = vec![false; bits.len()];
        let (free, given): (Vec<usize>, Vec<usize>) =
            (0..self.live.len()).partition(|&j| self.live[j].index == 0);
        for j in given {
            let bit = self.live[j].index - 1;
            bits[bit] = self.parity(j);
            named[bit] = true;
        }
        if Flaw::FreeBlockRead.is_on() {
            let unnamed = (0..bits.len()).filter(|&bit| !named[bit]);
            for (bit, j) in unnamed.zip(free) {
                bits[bit] = self.parity(j);
            }
        }
    }

    /// Raises the bit's block, else takes the first free one; or answers false and changes
    /// nothing.
    pub fn change(&mut self, bit: usize) -> bool {
        let find = |index| self.live.iter().position(|live| live.index == index);
        if let Some(j) = find(bit + 1) {
            self.raise(j);
            return true;
        }
        let Some(j) = find(0) else {
            return false;
        };
        self.live[j].index = bit + 1;
        if self.parity(j) == 0 || Flaw::FreeBlockAlwaysRaised.is_on() {
            self.raise(j);
        }
        true
    }

    /// Raises the j-th live block by one, and its index block to full if that fills the block.
    fn raise(&mut self, j: usize) {
        let below_top = |level: &u8| *level < self.top;
        let cells = self.cells_of(j);
        let block = &mut self.cells[cells];
        let found = match Flaw::LastCellRaised.is_on() {
            false => block.iter().position(below_top),
            true => block.iter().rposition(below_top),
        };
        if let Some(cell) = found {
            block[cell] += 1;
        }
        if !block.iter().any(below_top) && !Flaw::FullIndexKept.is_on() {
            self.live[j].index = self.full_index;
        }
    }

    fn parity(&self, j: usize) -> u8 {
        (sum(&self.cells[self.cells_of(j)]) % 2) as u8
    }

    fn cells_of(&self, j: usize) -> Range<usize> {
        let first = self.live[j].block * self.length;
        first..first + self.length
    }

    /// Writes the parity blocks and the stage's batch, where index blocks without a live block
    /// are full.
    pub fn encode(&self, settings: &Settings, sheet: &mut [u8]) {
        sheet[..self.cells.len()].copy_from_slice(&self.cells);
        let batch = &mut sheet[settings.batch(self.stage)];
        batch.fill(self.top);
        for live in &self.live {
            let digits = &mut batch[live.slot * settings.w..][..settings.w];
            write_number(settings.top, live.index, digits);
        }
    }
}

/// The number that the digits give in base top + 1, most significant first.
fn number(top: usize, digits: &[u8]) -> usize {
    let add = |number: usize, &digit: &u8| number * (top + 1) + usize::from(digit);
    match Flaw::DigitsLowFirst.is_on() {
        false => digits.iter().fold(0, add),
        true => digits.iter().rev().fold(0, add),
    }
}

/// Writes the number's digits in base top + 1, most significant first.
fn write_number(top: usize, mut number: usize, digits: &mut [u8]) {
    for digit in digits.iter_mut().rev() {
        *digit = (number % (top + 1)) as u8;
        number /= top + 1;
    }
    if Flaw::DigitsLowFirst.is_on() {
        digits.reverse();
    }
}
