//! Whole runs from an erased sheet to the first Erase with random bits: the time of a change.

use crate::bits::Bits;
use crate::compiled::Compiled;
use crate::files::Line;
use crate::job::{greatest, sum};
use crate::places::both_kinds;
use crate::slowest::slowest;
use crate::table::{cells, name, ratio, rounded};
use crate::timing::Figures;
use second::Settings;
use std::hint::black_box;
use std::time::Instant;

/// The shapes of the sheets: for k = 2 a shorter one, since its run takes n L changes.
const SHAPES: [[usize; 3]; 4] = [
    [64, 15, 16_384],
    [64, 1, 16_384],
    [8, 15, 1_024],
    [2, 255, 1_024],
];

/// How many runs are timed; medians are of the pieces of all runs.
const RUNS: usize = 3;

/// The seed of every run.
const SEED: u64 = 1;

/// How many changes a piece has: they stand between two readings of the clock.
const PIECE: usize = 64;

/// The lines of whole runs and of their slowest changes, measured now.
pub fn measure() -> Vec<Line> {
    let mut lines = Vec::new();
    for settings in both_kinds(&SHAPES) {
        let bits = run_bits(&settings);
        let pieces: Vec<Figures> = (0..RUNS).flat_map(|_| run(&settings, &bits)).collect();
        let words = vec![name(&settings), bits.len().to_string()];
        lines.push(Line::new(
            "A change",
            words,
            cells(&Figures::median(&pieces)),
        ));
        let (slowest, which) = slowest(&settings, &bits);
        let figures = vec![
            rounded(slowest.library),
            ratio(slowest.to_greatest),
            ratio(slowest.to_sum),
            which,
        ];
        lines.push(Line::new(
            "The slowest change",
            vec![name(&settings)],
            figures,
        ));
    }
    lines
}

/// The bits of the run that are accepted.
fn run_bits(settings: &Settings) -> Vec<usize> {
    let library = Compiled::accept(settings);
    let mut sheet = vec![0; settings.n];
    let accepted = |&bit: &usize| library.change(&mut sheet, bit).answer == 0;
    Bits::Random(SEED)
        .of(settings.k)
        .take_while(accepted)
        .collect()
}

/// One run, piece by piece in turn by the library, the second program and as passes over the cells.
fn run(settings: &Settings, bits: &[usize]) -> Vec<Figures> {
    let library = Compiled::accept(settings);
    let (mut ours, mut theirs) = (vec![0; settings.n], vec![0; settings.n]);
    let mut piece = |bits: &[usize]| {
        let by_library = |bit| library.change(&mut ours, bit).answer == 0;
        let library = nanoseconds(bits, by_library);
        let by_second = |bit| second::change(settings, &mut theirs, bit).number() == 0;
        let second = nanoseconds(bits, by_second);
        let sum = nanoseconds(bits, |_| black_box(sum(black_box(&ours))) > 0);
        let greatest = nanoseconds(bits, |_| black_box(greatest(black_box(&ours))) > 0);
        assert_eq!(ours, theirs, "the sheets after a piece");
        Figures::new([library, second, sum, greatest])
    };
    bits.chunks(PIECE).map(&mut piece).collect()
}

/// The time of a call, one for each of the bits; each is to be done.
fn nanoseconds(bits: &[usize], mut call: impl FnMut(usize) -> bool) -> f64 {
    let start = Instant::now();
    let done = bits.iter().filter(|&&bit| call(bit)).count();
    let time = start.elapsed().as_nanos() as f64;
    assert_eq!(done, bits.len(), "every call is done");
    time / bits.len() as f64
}
