//! Runs from erase to Erase, with the counts of demand 3, and runs from built sheets.

use super::case::{Call, Case};
use super::comparison::Comparison;
use super::size::Size;
use crate::random::Random;
use crate::sheets::accepted;
use crate::Settings;

/// Which bit is changed next.
#[derive(Clone, Copy, Debug, PartialEq)]
enum Next {
    /// Bit 0 always.
    OneBit,
    /// Any bit.
    AnyBit,
    /// Bits 1 to k - 1 once each, then bit 0.
    Adversary,
}

use Next::{Adversary, AnyBit, OneBit};

const EVERY: &[Next] = &[OneBit, AnyBit, Adversary];

/// A run: the kind, k, L and n, and which bits.
type Start = ([u64; 4], &'static [Next]);

const SMALL: [Start; 12] = [
    ([0, 2, 1, 4], EVERY),
    ([0, 2, 255, 9], EVERY),
    ([0, 3, 2, 11], EVERY),
    ([0, 4, 2, 19], EVERY),
    ([0, 8, 7, 100], EVERY),
    ([0, 64, 1, 4100], &[AnyBit, Adversary]),
    ([1, 4, 1, 36], EVERY),
    ([1, 4, 2, 30], EVERY),
    ([1, 4, 255, 22], EVERY),
    ([1, 8, 1, 180], EVERY),
    ([1, 8, 3, 121], EVERY),
    ([1, 16, 3, 550], EVERY),
];

const LIMITS: [Start; 11] = [
    ([0, 2, 1, 16_384], EVERY),
    ([0, 2, 255, 100], EVERY),
    ([0, 63, 2, 16_384], &[Adversary]),
    ([0, 64, 1, 16_384], EVERY),
    ([0, 64, 255, 4_096], &[Adversary]),
    ([1, 4, 1, 16_384], EVERY),
    ([1, 4, 255, 300], &[AnyBit]),
    ([1, 16, 255, 350], EVERY),
    ([1, 32, 2, 3_000], EVERY),
    ([1, 64, 1, 16_384], EVERY),
    ([1, 64, 2, 8_100], &[AnyBit]),
];

const LONGEST: [Start; 5] = [
    ([0, 2, 15, 16_384], EVERY),
    ([0, 64, 15, 16_384], EVERY),
    ([0, 64, 255, 4_096], EVERY),
    ([1, 64, 15, 16_384], EVERY),
    ([1, 64, 255, 4_726], EVERY),
];

/// The least and the most of k and of L for both kinds, each with the most cells.
fn corners() -> impl Iterator<Item = [u64; 4]> {
    [(0, 2), (0, 64), (1, 4), (1, 64)]
        .into_iter()
        .flat_map(|(kind, k)| [1, 255].map(|top| [kind, k, top, 16_384]))
}

/// The runs of this size, and all of smaller sizes.
pub fn runs(comparison: &mut Comparison, seed: u64, size: Size) {
    let mut random = Random::new(seed);
    let mut starts = SMALL.to_vec();
    if size != Size::Light {
        starts.extend(LIMITS);
    }
    if size == Size::Long {
        starts.extend(LONGEST);
    }
    for (asked, nexts) in starts {
        for &next in nexts {
            from_erase(comparison, &mut random, asked, next);
        }
    }
    if size != Size::Light {
        for asked in corners() {
            from_built(comparison, &mut random, asked);
        }
    }
}

/// A run and what it came to.
struct Run {
    case: Case,
    /// Changes accepted.
    accepted: u64,
    /// The sum of the values answered.
    raised: u64,
    /// The answer of the last change, unless it differed.
    last: Option<usize>,
}

impl Run {
    /// Changes until one isn't accepted, or until the most.
    fn new(
        comparison: &mut Comparison,
        mut case: Case,
        most: u64,
        mut next: impl FnMut(u64) -> usize,
    ) -> Run {
        case.call = Call::Change;
        let (mut accepted, mut raised) = (0, 0);
        let last = loop {
            case.bit = next(accepted);
            match comparison.compare(&case) {
                Some(reply) if reply.answer == 0 && accepted < most => raised += reply.value as u64,
                other => break other.map(|reply| reply.answer),
            }
            accepted += 1;
            case.sheet.copy_from_slice(comparison.sheet());
        };
        Run {
            case,
            accepted,
            raised,
            last,
        }
    }
}

/// The bits that a run changes, by the number of changes made.
fn bits(random: &mut Random, k: usize, next: Next) -> impl FnMut(u64) -> usize + '_ {
    move |made| match next {
        Next::OneBit => 0,
        Next::AnyBit => random.below(k),
        Next::Adversary if made + 1 < k as u64 => made as usize + 1,
        Next::Adversary => 0,
    }
}

/// From erase to Erase: never before demand 3's count, and levels sum to what was answered.
fn from_erase(comparison: &mut Comparison, random: &mut Random, asked: [u64; 4], next: Next) {
    let settings = Settings::asked(asked);
    let mut case = Case::on(Call::Erase, &settings, &vec![1; settings.n]);
    comparison.compare(&case);
    case.sheet.copy_from_slice(comparison.sheet());
    let run = Run::new(comparison, case, u64::MAX, bits(random, settings.k, next));
    if run.last.is_none() {
        return;
    }
    let (made, count) = (run.accepted, demand_3(&settings));
    let text = || format!("{next:?} from erase: {made} changes, and demand 3 counts {count}");
    comparison.require(run.last == Some(7), &run.case, text);
    comparison.require(made >= count, &run.case, text);
    let exact = settings.kind == 0 && next == Adversary;
    comparison.require(!exact || made == count, &run.case, text);
    let sum: u64 = run.case.sheet.iter().map(|&level| u64::from(level)).sum();
    comparison.require(run.raised == sum, &run.case, || {
        format!("levels sum to {sum}, and {} were answered", run.raised)
    });
    let plain = settings.kind == 0;
    comparison.require(!plain || sum == made, &run.case, text);
}

/// Demand 3's count, written out once more.
fn demand_3(settings: &Settings) -> u64 {
    let Settings {
        kind, k, top, m, s, ..
    } = *settings;
    let count = match kind {
        0 => (m - k + 1) * k * top + k - 1,
        _ => m * k * top - (k - 1) * (2 * top + s - 1),
    };
    count as u64
}

/// From built sheets of every stage, some hundred changes at most.
fn from_built(comparison: &mut Comparison, random: &mut Random, asked: [u64; 4]) {
    let settings = Settings::asked(asked);
    for stage in 0..settings.s.max(1) {
        for next in [AnyBit, AnyBit, OneBit] {
            let sheet = accepted(random, &settings, stage);
            let case = Case::on(Call::Change, &settings, &sheet);
            Run::new(comparison, case, 300, bits(random, settings.k, next));
        }
    }
}
