//! Moves to a later stage, and the answer Erase, on the sheets that runs of changes come to.

use crate::bits::Bits;
use crate::compiled::Compiled;
use crate::files::Line;
use crate::job::{Call, Job};
use crate::places::{both_kinds, stage, SHAPES};
use crate::table::{cells, name};
use crate::timing::time;
use second::Settings;

/// How many rounds a move is measured for.
const ROUNDS: usize = 201;

/// The runs that are searched for moves; a pair of stages is taken where it is found first.
const RUNS: [(Bits, &str); 3] = [
    (Bits::Random(1), "random bits"),
    (Bits::Random(2), "random bits"),
    (Bits::Adversary, "bits 1 to k - 1, then 0"),
];

/// A change that leaves its stage.
struct Move {
    from: usize,
    /// The stage after it, or none where it is answered Erase.
    to: Option<usize>,
    job: Job,
    /// The sheet after it.
    after: Vec<u8>,
}

/// The moves of all runs, each pair of stages once, with their settings and run.
fn all_moves() -> Vec<(Settings, &'static str, Move)> {
    let mut all: Vec<(Settings, &'static str, Move)> = Vec::new();
    for settings in both_kinds(&SHAPES)
        .into_iter()
        .filter(|settings| settings.kind == 1)
    {
        let first = all.len();
        for (bits, run) in RUNS {
            for found in moves(&settings, bits) {
                let same =
                    |(_, _, other): &(_, _, Move)| (other.from, other.to) == (found.from, found.to);
                if !all[first..].iter().any(same) {
                    all.push((settings, run, found));
                }
            }
        }
    }
    all
}

/// The lines of all moves, and those of the calls on the sheets that they leave, measured now.
pub fn measure() -> Vec<Line> {
    let mut lines = Vec::new();
    for (settings, run, found) in all_moves() {
        let to = found.to.map_or("Erase".into(), |to| to.to_string());
        let mut line = |title, words, job: &Job| {
            lines.push(Line::new(title, words, cells(&time(job, ROUNDS))));
        };
        let words = vec![
            name(&settings),
            run.into(),
            found.from.to_string(),
            to.clone(),
        ];
        line("The move", words, &found.job);
        if found.to.is_none() {
            continue;
        }
        for (call, called) in [(Call::Read, "reading"), (Call::Change, "change")] {
            let job = Job::new(&settings, found.after.clone(), call);
            let words = vec![name(&settings), to.clone(), called.into()];
            line("A reading and a change on the sheet after it", words, &job);
        }
    }
    lines
}

/// The moves of one run from an erased sheet to the first Erase, and that Erase.
fn moves(settings: &Settings, bits: Bits) -> Vec<Move> {
    let library = Compiled::accept(settings);
    let (mut sheet, mut before) = (vec![0; settings.n], vec![0; settings.n]);
    let (mut moves, mut from) = (Vec::new(), 0);
    for bit in bits.of(settings.k) {
        before.copy_from_slice(&sheet);
        let reply = library.change(&mut sheet, bit);
        let job = || Job::change(settings, before.clone(), bit, reply.answer);
        if reply.answer != 0 {
            assert_eq!(reply.answer, 7, "a run ends with Erase");
            let (to, job, after) = (None, job(), sheet);
            moves.push(Move {
                from,
                to,
                job,
                after,
            });
            break;
        }
        // A move writes the numbers 1 to k: it raises more than one level.
        if reply.value > 1 && stage(settings, &sheet) > from {
            let to = stage(settings, &sheet);
            let job = job();
            moves.push(Move {
                from,
                to: Some(to),
                job,
                after: sheet.clone(),
            });
            from = to;
        }
    }
    moves
}
