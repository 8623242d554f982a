//! The slowest single change of a run by the library.

use crate::compiled::Compiled;
use crate::job::Job;
use crate::places::stage;
use crate::table::grouped;
use crate::timing::{time, Figures};
use second::Settings;
use std::time::Instant;

/// How often the run is made to find the changes that may be the slowest.
const RUNS: usize = 3;

/// How many of them are then measured apart, each for so many rounds.
const MEASURED: usize = 12;
const ROUNDS: usize = 51;

/// The figures of the slowest change of the run, and what it does. A single reading of the clock
/// also shows what else the machine does, so those that seem slow are measured again.
pub fn slowest(settings: &Settings, bits: &[usize]) -> (Figures, String) {
    let times = least_times(settings, bits);
    let mut places: Vec<usize> = (0..bits.len()).collect();
    places.sort_by_key(|&place| std::cmp::Reverse(times[place]));
    places.truncate(MEASURED);
    let measured = |(job, which): (Job, String)| (time(&job, ROUNDS), which);
    let all = changes_at(settings, bits, &places)
        .into_iter()
        .map(measured);
    let slowest = all.max_by(|one, other| one.0.to_sum.total_cmp(&other.0.to_sum));
    slowest.expect("a run has a change")
}

/// Each change's least time of all runs.
fn least_times(settings: &Settings, bits: &[usize]) -> Vec<u128> {
    let library = Compiled::accept(settings);
    let mut times = vec![u128::MAX; bits.len()];
    for _ in 0..RUNS {
        let mut sheet = vec![0; settings.n];
        for (least, &bit) in times.iter_mut().zip(bits) {
            let start = Instant::now();
            let reply = library.change(&mut sheet, bit);
            *least = start.elapsed().as_nanos().min(*least);
            assert_eq!(reply.answer, 0, "every change of the run is done");
        }
    }
    times
}

/// The changes at these places of the run, and what each does.
fn changes_at(settings: &Settings, bits: &[usize], places: &[usize]) -> Vec<(Job, String)> {
    let library = Compiled::accept(settings);
    let mut sheet = vec![0; settings.n];
    let mut changes = Vec::new();
    for (place, &bit) in bits.iter().enumerate() {
        let before = places.contains(&place).then(|| sheet.clone());
        assert_eq!(library.change(&mut sheet, bit).answer, 0);
        if let Some(before) = before {
            let which = match (stage(settings, &before), stage(settings, &sheet)) {
                (from, to) if from < to => format!("a move, stage {from} to {to}"),
                (at, _) => format!("change {} at stage {at}", grouped(place as u64 + 1)),
            };
            changes.push((Job::change(settings, before, bit, 0), which));
        }
    }
    changes
}
