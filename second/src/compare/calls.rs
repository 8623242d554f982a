//! Random calls over all sizes, on accepted sheets of every stage and on damaged ones.

use super::case::{Call, Case};
use super::comparison::Comparison;
use super::forged::others;
use crate::random::Random;
use crate::sheets::{accepted, some_settings, Damage};
use crate::Settings;

/// How many calls are made on sheets that come from one built sheet.
const EACH: u64 = 10;

/// So many random calls. The first of them are the same for any number of calls.
pub fn calls(comparison: &mut Comparison, seed: u64, count: u64) {
    let mut random = Random::new(seed);
    let mut round = 0;
    while round * EACH < count {
        let settings = some_settings(&mut random, (round % 2) as usize);
        let stage = random.below(settings.s.max(1));
        let mut sheet = accepted(&mut random, &settings, stage);
        for _ in 0..EACH.min(count - round * EACH) {
            let case = some_case(&mut random, &settings, &sheet);
            let reply = comparison.compare(&case);
            let own = case.call == Call::Change && case.numbers == settings.numbers();
            let accepted = own && reply.is_some_and(|reply| reply.answer == 0);
            if accepted && random.below(2) == 0 {
                sheet.copy_from_slice(comparison.sheet());
            }
        }
        round += 1;
    }
}

/// A call on the sheet, now and then damaged, with a wrong argument or with a forged record.
fn some_case(random: &mut Random, settings: &Settings, sheet: &[u8]) -> Case {
    let call = random.one_of(&[
        Call::Change,
        Call::Change,
        Call::Change,
        Call::Change,
        Call::Change,
        Call::Read,
        Call::Read,
        Call::Erase,
    ]);
    let mut case = Case::on(call, settings, sheet);
    case.bit = random.below(settings.k);
    if random.below(3) == 0 {
        let damage = random.one_of(&Damage::ALL);
        case.sheet = damage.apply(random, settings, sheet).unwrap_or(case.sheet);
    }
    if random.below(16) == 0 {
        let beyond = random.number() as usize;
        case.bit = random.one_of(&[settings.k, settings.k + 1, 255, beyond]);
    }
    if random.below(3) == 0 {
        let more = settings.k + random.below(40);
        let fewer = random.below(settings.k);
        case.places = random.one_of(&[more, more, fewer]);
    }
    if random.below(32) == 0 {
        let field = random.below(7);
        case.numbers[field] = random.one_of(&others(case.numbers[field]));
    }
    case
}
