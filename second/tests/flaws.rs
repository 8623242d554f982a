//! Every deliberate flaw shows on the generated sheets, and the switch leaves nothing behind.

use second::random::Random;
use second::sheets::{accepted, some_settings, Damage};
use second::{change, read, Answer, Flaw, Settings};

/// Everything a reading and a change of one sheet show.
type Outcome = (Answer, [u8; 64], Answer, Vec<u8>);

fn outcome(settings: &Settings, sheet: &[u8], bit: usize) -> Outcome {
    let (mut output, mut after) = ([7; 64], sheet.to_vec());
    let reading = read(settings, sheet, &mut output);
    (reading, output, change(settings, &mut after, bit), after)
}

/// How many of the inputs show the flaw.
fn differences(flaw: Flaw) -> usize {
    let mut random = Random::new(5);
    let mut found = 0;
    for round in 0..400 {
        let settings = some_settings(&mut random, round % 2);
        for stage in 0..settings.s.max(1) {
            let mut sheet = accepted(&mut random, &settings, stage);
            if random.below(3) == 0 {
                let damage = random.one_of(&Damage::ALL);
                sheet = damage
                    .apply(&mut random, &settings, &sheet)
                    .unwrap_or(sheet);
            }
            let bit = random.below(settings.k + 1);
            let right = outcome(&settings, &sheet, bit);
            found += usize::from(flaw.during(|| outcome(&settings, &sheet, bit)) != right);
            assert_eq!(outcome(&settings, &sheet, bit), right);
        }
    }
    found
}

#[test]
fn every_flaw_shows() {
    assert_eq!(differences(Flaw::None), 0);
    for flaw in Flaw::ALL {
        let found = differences(flaw);
        println!("{flaw:?}: {found}");
        assert!(found > 0, "{flaw:?}");
    }
}
