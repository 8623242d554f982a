//! What a torn sheet reads, beside the bits before the change and after it.

use super::change::Change;
use super::order::{Grain, Order};
use super::reader::{Bits, Reader};

/// What a torn sheet reads.
#[derive(Clone, Copy, Debug, PartialEq, Eq)]
pub enum Reading {
    /// The bits before the change.
    Old,
    /// The bits after it.
    New,
    /// The sheet is refused.
    Refused,
    /// Done, with bits that are neither.
    Third,
}

/// The torn sheets of one change.
pub struct Torn<'a> {
    /// The change.
    pub change: &'a Change<'a>,
    reader: &'a mut Reader,
    /// The bits before it.
    pub old: Bits,
    /// The bits after it.
    pub new: Bits,
}

impl<'a> Torn<'a> {
    /// The torn sheets of a change, whose two whole sheets are accepted.
    pub fn new(change: &'a Change<'a>, reader: &'a mut Reader) -> Torn<'a> {
        let mut whole = |sheet| reader.bits(sheet).expect("a whole sheet is accepted");
        let (old, new) = (whole(change.before), whole(change.after));
        let flipped = old.iter().zip(&new).filter(|(old, new)| old != new).count();
        assert_eq!(flipped, 1, "a change flips one bit");
        Torn {
            change,
            reader,
            old,
            new,
        }
    }

    /// The bits of a torn sheet, or none where it is refused.
    pub fn bits(&mut self, sheet: &[u8]) -> Option<Bits> {
        self.reader.bits(sheet)
    }

    /// What a torn sheet reads.
    pub fn reading(&mut self, sheet: &[u8]) -> Reading {
        match self.bits(sheet) {
            None => Reading::Refused,
            Some(bits) if bits == self.old => Reading::Old,
            Some(bits) if bits == self.new => Reading::New,
            Some(_) => Reading::Third,
        }
    }

    /// How often each reading comes up when the writes in this order are cut at each place.
    pub fn readings(&mut self, grain: Grain, order: Order) -> [u64; 4] {
        let mut sheet = self.change.before.to_vec();
        let mut counts = [0; 4];
        let mut writes = grain.writes(self.change, order);
        // After the last write the change is whole.
        writes.pop();
        for (cell, level) in writes {
            sheet[cell] = level;
            counts[self.reading(&sheet) as usize] += 1;
        }
        counts
    }
}
