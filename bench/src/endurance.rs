//! Endurance: how many changes an erased sheet accepts until the first Erase.

use crate::adversary;
use crate::bits::Bits;
use crate::compiled::Compiled;
use crate::measured::Measured;
use crate::places::both_kinds;
use second::Settings;
use std::sync::atomic::{AtomicUsize, Ordering};
use std::sync::Mutex;
use std::thread;

/// The shapes that are measured: k, L and n.
const SHAPES: [[usize; 3]; 7] = [
    [2, 1, 4],
    [4, 3, 64],
    [8, 15, 1_024],
    [16, 7, 2_048],
    [64, 1, 16_384],
    [64, 15, 16_384],
    [2, 255, 16_384],
];

/// Changes accepted by the library from an erased sheet until the first Erase.
fn accepted(settings: &Settings, bits: Bits) -> u64 {
    if settings.kind == 1 && bits == Bits::Adversary {
        return adversary::accepted(settings);
    }
    let library = Compiled::accept(settings);
    let mut sheet = vec![1; settings.n];
    let erased = library.erase(&mut sheet);
    assert_eq!((erased.answer, erased.value), (0, library.guarantee()));
    let mut accepted = 0;
    for bit in bits.of(settings.k) {
        let reply = library.change(&mut sheet, bit);
        if reply.answer != 0 {
            assert_eq!(reply.answer, 7, "a run ends with Erase");
            break;
        }
        accepted += 1;
    }
    accepted
}

/// The runs of these settings: the adversary, one bit, and random bits by each seed.
fn runs(settings: &Settings) -> Vec<Bits> {
    let long = settings.n * settings.top > 1_000_000;
    let seeds = if long { 3 } else { 9 };
    let random = (1..=seeds).map(Bits::Random);
    [Bits::Adversary, Bits::One]
        .into_iter()
        .chain(random)
        .collect()
}

/// Measures all settings, on all cores.
pub fn measure() -> Vec<Measured> {
    let all = both_kinds(&SHAPES);
    let with_runs = |settings| runs(settings).into_iter().map(move |bits| (settings, bits));
    let work: Vec<(&Settings, Bits)> = all.iter().flat_map(with_runs).collect();
    let counts = in_parallel(&work, |&(settings, bits)| accepted(settings, bits));
    let mut counts = counts.into_iter();
    let mut of = |settings| {
        counts
            .by_ref()
            .take(runs(settings).len())
            .collect::<Vec<u64>>()
    };
    all.iter()
        .map(|settings| Measured::new(settings, &of(settings)))
        .collect()
}

/// The result for each piece of work; the last pieces are the longest and are begun first.
fn in_parallel<T: Sync>(work: &[T], result: impl Fn(&T) -> u64 + Sync) -> Vec<u64> {
    let left = AtomicUsize::new(work.len());
    let results = Mutex::new(vec![0; work.len()]);
    let worker = || loop {
        let before = left.fetch_update(Ordering::Relaxed, Ordering::Relaxed, |left| {
            left.checked_sub(1)
        });
        let Ok(before) = before else { break };
        let found = result(&work[before - 1]);
        results.lock().expect("no worker has failed")[before - 1] = found;
    };
    thread::scope(|scope| {
        for _ in 0..thread::available_parallelism().map_or(1, usize::from) {
            scope.spawn(worker);
        }
    });
    results.into_inner().expect("no worker has failed")
}
