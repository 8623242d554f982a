//! The runs whose changes are cut.

use super::change::Change;
use super::reader::Reader;
use super::sort::Sort;
use super::tally::Tally;
use crate::bits::Bits;
use crate::places::both_kinds;
use second::Settings;

/// k, L and n, and how many runs of random bits each of the kinds has.
const SHAPES: [([usize; 3], u64); 9] = [
    ([4, 1, 34], 2_000),
    ([4, 2, 28], 2_000),
    ([4, 3, 28], 2_000),
    ([8, 1, 176], 500),
    ([8, 2, 148], 500),
    ([8, 3, 120], 500),
    ([8, 15, 1_024], 50),
    ([16, 7, 2_048], 20),
    ([64, 15, 5_356], 4),
];

/// What was counted of one settings.
pub struct Measured {
    /// The settings.
    pub settings: Settings,
    /// How many runs.
    pub runs: u64,
    /// What was counted, by sort of change.
    pub sorts: [Tally; 6],
    /// How many readings were compared with the second program's.
    pub compared: u64,
    /// How many of them differed.
    pub differing: u64,
}

/// Cuts every change of all runs.
pub fn measure() -> Vec<Measured> {
    let kinds = |&(shape, runs)| {
        both_kinds(&[shape])
            .into_iter()
            .map(move |settings| (settings, runs))
    };
    let all = SHAPES.iter().flat_map(kinds);
    all.map(|(settings, runs)| measured(settings, runs))
        .collect()
}

/// Cuts every change of so many runs.
fn measured(settings: Settings, runs: u64) -> Measured {
    let mut reader = Reader::new(&settings);
    let mut sorts = [Tally::default(); 6];
    for seed in 1..=runs {
        run(&settings, Bits::Random(seed), &mut reader, &mut sorts);
    }
    Measured {
        settings,
        runs,
        sorts,
        compared: reader.compared,
        differing: reader.differing,
    }
}

/// Cuts every change of a run from an erased sheet to the first Erase.
fn run(settings: &Settings, bits: Bits, reader: &mut Reader, sorts: &mut [Tally; 6]) {
    let library = reader.library();
    let (mut sheet, mut before) = (vec![0; settings.n], vec![0; settings.n]);
    for bit in bits.of(settings.k) {
        before.copy_from_slice(&sheet);
        let reply = library.change(&mut sheet, bit);
        if reply.answer != 0 {
            assert_eq!(reply.answer, 7, "a run ends with Erase");
            break;
        }
        let change = Change::new(settings, &before, &sheet);
        sorts[Sort::of(&change) as usize].count(&change, reader);
    }
}
