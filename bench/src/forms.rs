//! What two forms of the code cost: the loops over pairs of active blocks, and the methods of the settings record.

use crate::files::{Line, NONE};
use crate::job::Job;
use crate::places::{both_kinds, settings, SHAPES};
use crate::sheets::active;
use crate::table::name;
use crate::timing::{median, time};
use harpginger::Kind;
use second::Settings;
use std::hint::black_box;
use std::time::Instant;

/// How many rounds a reading is measured for.
const ROUNDS: usize = 401;

/// How many times a record is worked out in a round.
const TURNS: usize = 1_000;

/// The number of BadSheet.
const BAD_SHEET: u64 = 6;

/// The lines of both tables, measured now.
pub fn measure() -> Vec<Line> {
    pairs().into_iter().chain(records()).collect()
}

/// Readings that leave the loops over pairs at the first pair, at the last pair, or never.
fn pairs() -> Vec<Line> {
    let settings = settings(0, SHAPES[0]).expect("accepted settings");
    let mut lines = Vec::new();
    for count in [2, 8, settings.k] {
        let bits: Vec<usize> = (0..count).collect();
        let reading = |bits: &[usize], answer| {
            let job = Job::reading(&settings, active(&settings, bits), answer);
            time(&job, ROUNDS).library
        };
        let [mut first, mut last] = [bits.clone(), bits.clone()];
        first[1] = first[0];
        last[count - 1] = last[count - 2];
        let [first, last, accepted] = [(first, BAD_SHEET), (last, BAD_SHEET), (bits, 0)]
            .map(|(bits, answer)| reading(&bits, answer));
        let pairs = count * (count - 1) / 2;
        let [first, last, accepted] = [first, last, accepted].map(|time| time.round() as u64);
        // Of two blocks there is one pair, so that the first is the last.
        let loops = match count {
            2 => NONE.into(),
            _ => last.saturating_sub(first).to_string(),
        };
        let words = vec![count.to_string(), pairs.to_string()];
        let [first, last, accepted] = [first, last, accepted].map(|time| time.to_string());
        let figures = vec![first, last, loops, accepted];
        lines.push(Line::new("Pairs of active blocks", words, figures));
    }
    lines
}

/// The time to work a record out once, which each method of the record does.
fn records() -> Vec<Line> {
    let line = |settings: &Settings| {
        let rounds = (0..ROUNDS).map(|_| worked_out(settings)).collect();
        let figures = vec![format!("{:.1}", median(rounds))];
        Line::new(
            "A settings record worked out",
            vec![name(settings)],
            figures,
        )
    };
    both_kinds(&SHAPES).iter().map(line).collect()
}

/// The time of one acceptance, in nanoseconds.
fn worked_out(settings: &Settings) -> f64 {
    let kind = [Kind::Plain, Kind::Staged][settings.kind];
    let start = Instant::now();
    for _ in 0..TURNS {
        let [k, top, n] = black_box([settings.k, settings.top, settings.n]);
        let accepted = harpginger::Settings::accept(kind, k, top, n);
        assert!(black_box(accepted).is_ok(), "accepted settings");
    }
    start.elapsed().as_nanos() as f64 / TURNS as f64
}
