//! What is counted of many changes.

use super::change::Change;
use super::order::{Grain, Order};
use super::reader::Reader;
use super::search::search;
use super::torn::{Reading, Torn};

/// What is counted of the changes of one sort.
#[derive(Clone, Copy, Debug, Default)]
pub struct Tally {
    /// How many changes.
    pub changes: u64,
    /// By grain.
    pub grains: [Cuts; 2],
}

/// What is counted of their cuts at one grain.
#[derive(Clone, Copy, Debug, Default, PartialEq, Eq)]
pub struct Cuts {
    /// How many cuts, in any one order.
    pub cuts: u64,
    /// By order: how often the torn sheet reads the old bits, the new ones, is refused, reads a third thing.
    pub readings: [[u64; 4]; 3],
    /// How many changes can be cut.
    pub torn: u64,
    /// By order: how many of them have a cut after which a third thing is read.
    pub spoiled: [u64; 3],
    /// For how many of them there is an order with no third reading, there is none, the search was given up.
    pub found: [u64; 3],
}

impl Tally {
    /// Cuts a change at each place, in each order, and searches for an order of its own.
    pub fn count(&mut self, change: &Change, reader: &mut Reader) {
        self.changes += 1;
        if Grain::Level.writes(change, Order::Ascending).len() == 1 {
            return; // One level of one cell is raised: nothing can be cut.
        }
        let mut torn = Torn::new(change, reader);
        for (grain, cuts) in Grain::ALL.into_iter().zip(&mut self.grains) {
            cuts.count(&mut torn, grain);
        }
    }

    /// Cuts at both grains.
    pub fn cuts(&self) -> u64 {
        self.grains.iter().map(|cuts| cuts.cuts).sum()
    }

    /// Adds what another one counted.
    pub fn add(&mut self, other: &Tally) {
        self.changes += other.changes;
        for (cuts, more) in self.grains.iter_mut().zip(&other.grains) {
            cuts.add(more);
        }
    }

    /// The sum of them.
    pub fn sum<'a>(all: impl IntoIterator<Item = &'a Tally>) -> Tally {
        let mut sum = Tally::default();
        all.into_iter().for_each(|tally| sum.add(tally));
        sum
    }
}

impl Cuts {
    fn count(&mut self, torn: &mut Torn, grain: Grain) {
        let cuts = grain.writes(torn.change, Order::Ascending).len() as u64 - 1;
        if cuts == 0 {
            return;
        }
        self.cuts += cuts;
        self.torn += 1;
        for order in Order::ALL {
            let readings = torn.readings(grain, order);
            add(&mut self.readings[order as usize], &readings);
            self.spoiled[order as usize] += u64::from(readings[Reading::Third as usize] > 0);
        }
        self.found[search(torn, grain) as usize] += 1;
    }

    fn add(&mut self, other: &Cuts) {
        self.cuts += other.cuts;
        add(
            self.readings.as_flattened_mut(),
            other.readings.as_flattened(),
        );
        self.torn += other.torn;
        add(&mut self.spoiled, &other.spoiled);
        add(&mut self.found, &other.found);
    }

    /// How often the torn sheet reads a third thing in this order.
    pub fn third(&self, order: Order) -> u64 {
        self.readings[order as usize][Reading::Third as usize]
    }
}

/// Adds each count to its sum.
fn add(sums: &mut [u64], counts: &[u64]) {
    for (sum, count) in sums.iter_mut().zip(counts) {
        *sum += count;
    }
}
