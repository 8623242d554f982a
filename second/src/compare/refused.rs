//! How many sheets at stage 0 the two rules about the order of blocks refuse, for tiny settings.
//!
//! The counts come from readings of every assignment of levels, with flaws that leave a rule out;
//! from formulas over the blocks; and, for the sheets that are accepted, from a search that makes
//! every run of changes from the erased sheet. The table is printed only where all of them agree.

use super::tiny::PLAIN;
use crate::sheets::every;
use crate::table::row;
use crate::{past, read, Flaw, Settings};
use std::collections::HashSet;

/// Settings that are counted beside those of `tiny`: the kind, k, L and n.
const MORE: [[u64; 4]; 5] = [
    [0, 2, 1, 10],
    [0, 2, 2, 8],
    [0, 3, 2, 12],
    [0, 4, 1, 20],
    [1, 4, 1, 38],
];

/// How many sheets of one record of settings are accepted and refused, and by which rule.
#[derive(Clone, Copy, Debug, Default, PartialEq, Eq)]
pub struct Refused {
    /// Accepted where blocks may stand in any order.
    pub any_order: u64,
    /// Of these, refused for an empty block before one that isn't empty, and for nothing else.
    pub hole: u64,
    /// Refused for a full block last where all k bits have active blocks, and for nothing else.
    pub full_last: u64,
    /// Refused for both.
    pub both: u64,
    /// Accepted.
    pub accepted: u64,
}

/// The settings that are counted, by kind, k, L and n.
pub fn settings() -> Vec<Settings> {
    let mut all: Vec<[u64; 4]> = PLAIN.into_iter().chain(MORE).collect();
    all.sort_unstable();
    all.into_iter().map(Settings::asked).collect()
}

/// The cells that take every level: all of a plain sheet, the blocks of a staged one at stage 0.
fn cells(settings: &Settings) -> usize {
    match settings.kind {
        0 => settings.n,
        _ => settings.m * settings.k,
    }
}

/// How many assignments of levels there are.
pub fn assignments(settings: &Settings) -> u64 {
    (settings.top as u64 + 1).pow(cells(settings) as u32)
}

impl Refused {
    /// Reads every assignment of levels, with both rules, with either and with none.
    pub fn by_reading(settings: &Settings) -> Refused {
        let mut counts = Refused::default();
        for mut sheet in every(cells(settings), settings.top as u8) {
            sheet.resize(settings.n, 0);
            counts.count(settings, &sheet);
        }
        counts
    }

    fn count(&mut self, settings: &Settings, sheet: &[u8]) {
        let done = |flaw: Flaw| flaw.during(|| read(settings, sheet, &mut [0; 64]).number() == 0);
        let [any_order, accepted] = [Flaw::OrderIgnored, Flaw::None].map(done);
        let [no_full_last, no_hole] = [Flaw::HoleAccepted, Flaw::FullLastAccepted].map(done);
        self.any_order += u64::from(any_order);
        self.accepted += u64::from(accepted);
        self.hole += u64::from(no_full_last && !no_hole);
        self.full_last += u64::from(no_hole && !no_full_last);
        self.both += u64::from(any_order && !no_hole && !no_full_last);
    }

    /// Counts by formulas over the m blocks, in which empty and full are one state each, and an
    /// active block of one bit has kL - 1 weights.
    pub fn by_formulas(settings: &Settings) -> Refused {
        let Settings { k, top, m, .. } = *settings;
        let weights = (k * top - 1) as u64;
        // So many blocks of which so many are active: at which places, with which bits and weights.
        let laid = |blocks, active: usize| {
            let bits: u64 = (0..active).map(|held| (k - held) as u64).product();
            choose(blocks, active) * bits * weights.pow(active as u32)
        };
        let any_order = (0..=k).map(|active| laid(m, active) << (m - active)).sum();
        let in_a_row = |used| (0..=k.min(used)).map(|active| laid(used, active)).sum();
        let no_hole: u64 = (0..=m).map::<u64, _>(in_a_row).sum();
        // All k active among the blocks before the last in use, which is full.
        let full_last = (k..m).map(|before| laid(before, k)).sum();
        let with_holes: u64 = (k..m).map(|before| laid(before, k) << (before - k)).sum();
        let both = with_holes - full_last;
        Refused {
            any_order,
            hole: any_order - no_hole - both,
            full_last,
            both,
            accepted: no_hole - full_last,
        }
    }

    fn numbers(&self, settings: &Settings) -> [u64; 7] {
        [
            settings.m as u64,
            assignments(settings),
            self.any_order,
            self.hole,
            self.full_last,
            self.both,
            self.accepted,
        ]
    }
}

/// In how many ways so many of the blocks are chosen.
fn choose(blocks: usize, count: usize) -> u64 {
    match (blocks, count) {
        (_, 0) => 1,
        (0, _) => 0,
        _ => choose(blocks - 1, count - 1) + choose(blocks - 1, count),
    }
}

/// The sheets at stage 0 that runs of changes from the erased sheet end in, the erased one too.
pub fn reached(settings: &Settings) -> HashSet<Vec<u8>> {
    let blocks = cells(settings);
    let stage_0 = |sheet: &[u8]| sheet[blocks..].iter().all(|&level| level == 0);
    past::reached(settings, stage_0)
}

/// The counts of all settings as a table, or what does not agree.
pub fn table() -> Result<String, String> {
    let mut table = String::from(HEAD);
    for settings in settings() {
        let counts = Refused::by_reading(&settings);
        let other = Refused::by_formulas(&settings);
        let reached = reached(&settings).len() as u64;
        if counts != other || counts.accepted != reached {
            return Err(format!(
                "{settings:?}: {counts:?} by reading, {other:?} by formulas, {reached} reached"
            ));
        }
        table += &row(&settings, &counts.numbers(&settings));
    }
    Ok(table)
}

const HEAD: &str = "\
| settings | m | assignments of levels | accepted in any order of blocks | refused: a hole | refused: a full block last | refused: both | accepted |
| --- | ---: | ---: | ---: | ---: | ---: | ---: | ---: |
";
