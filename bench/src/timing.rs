//! The clock: library, second program, sum and greatest byte in turn, round after round.

use crate::job::{By, Job};
use std::time::Instant;

/// The figures of one row, in nanoseconds or in instructions for one call.
#[derive(Clone, Copy, Debug)]
pub struct Figures {
    /// Of the library.
    pub library: f64,
    /// Of the second program.
    pub second: f64,
    /// Of the sum.
    pub sum: f64,
    /// Of the greatest byte.
    pub greatest: f64,
    /// The library's share of the second program.
    pub to_second: f64,
    /// The library's share of the sum.
    pub to_sum: f64,
    /// The library's share of the greatest byte.
    pub to_greatest: f64,
}

impl Figures {
    /// The figures of one round, in the order of `By::ALL`.
    pub fn new([library, second, sum, greatest]: [f64; 4]) -> Figures {
        Figures {
            library,
            second,
            sum,
            greatest,
            to_second: library / second,
            to_sum: library / sum,
            to_greatest: library / greatest,
        }
    }

    /// The median of each figure; a ratio's median is of the rounds' ratios.
    pub fn median(rounds: &[Figures]) -> Figures {
        let of = |figure: fn(&Figures) -> f64| median(rounds.iter().map(figure).collect());
        Figures {
            library: of(|figures| figures.library),
            second: of(|figures| figures.second),
            sum: of(|figures| figures.sum),
            greatest: of(|figures| figures.greatest),
            to_second: of(|figures| figures.to_second),
            to_sum: of(|figures| figures.to_sum),
            to_greatest: of(|figures| figures.to_greatest),
        }
    }
}

/// The median of an odd number of figures, or the higher of the middle two.
pub fn median(mut figures: Vec<f64>) -> f64 {
    figures.sort_by(f64::total_cmp);
    figures[figures.len() / 2]
}

/// How many cells all copies of a sheet have together: few enough for a core's own cache.
const CELLS: usize = 1 << 18;

/// The figures of a job, as medians of so many rounds.
pub fn time(job: &Job, rounds: usize) -> Figures {
    job.check().expect("library and second program agree");
    let mut copies = vec![0; CELLS / job.sheet.len() * job.sheet.len()];
    let mut round = |_| Figures::new(By::ALL.map(|by| nanoseconds(job, by, &mut copies)));
    let rounds: Vec<Figures> = (0..rounds).map(&mut round).collect();
    Figures::median(&rounds)
}

/// The time of a call, one on each copy of the sheet; copying back is not in it.
fn nanoseconds(job: &Job, by: By, copies: &mut [u8]) -> f64 {
    let n = job.sheet.len();
    let turns = copies.len() / n;
    for copy in copies.chunks_exact_mut(n) {
        copy.copy_from_slice(&job.sheet);
    }
    let mut done = true;
    let start = Instant::now();
    for (turn, copy) in copies.chunks_exact_mut(n).enumerate() {
        done &= job.does(by, copy, job.bit(turn, turns));
    }
    let time = start.elapsed();
    assert!(done, "{by:?} answered otherwise");
    time.as_nanos() as f64 / turns as f64
}
