//! How many cells a sheet needs: for so many pens, and so many changes between two erases, the
//! least that guarantee them, plain and staged.

use harpginger::{Kind, Settings, MOST_BITS, MOST_CELLS};
use std::process::ExitCode;

/// Cells of 1, 2, 3, 4 and 8 bits have these top levels.
const TOPS: [usize; 5] = [1, 3, 7, 15, 255];

fn main() -> ExitCode {
    let words: Vec<usize> = std::env::args()
        .skip(1)
        .map_while(|word| word.parse().ok())
        .collect();
    let [pens, changes] = words[..] else {
        return usage();
    };
    if std::env::args().len() != 3 || !(1..=MOST_BITS).contains(&pens) {
        return usage();
    }
    println!("top level   plain: bits   cells   staged: bits   cells");
    for top in TOPS {
        let [plain, staged] = [plain_bits(pens, top), staged_bits(pens)];
        println!(
            "{top:>9} {:>13} {:>7} {:>14} {:>7}",
            plain,
            shown(least(Kind::Plain, plain, top, changes)),
            staged,
            shown(least(Kind::Staged, staged, top, changes)),
        );
    }
    ExitCode::SUCCESS
}

fn usage() -> ExitCode {
    eprintln!("usage: cells PENS CHANGES: PENS from 1 to {MOST_BITS}, CHANGES between two erases");
    ExitCode::from(2)
}

/// A plain sheet keeps 2 bits or more, and bits times top level are even: a bit more stays 0.
fn plain_bits(pens: usize, top: usize) -> usize {
    let bits = pens.max(2);
    bits + bits * top % 2
}

/// A staged sheet keeps 4, 8, 16, 32 or 64 bits: those that no pen has stay 0.
fn staged_bits(pens: usize) -> usize {
    pens.next_power_of_two().max(4)
}

/// The least cells that guarantee so many changes, if the largest sheet does.
fn least(kind: Kind, bits: usize, top: usize, changes: usize) -> Option<usize> {
    let enough = |&cells: &usize| {
        let settings = Settings::accept(kind, bits, top, cells);
        settings.is_ok_and(|settings| settings.guarantee() >= changes as u64)
    };
    (1..=MOST_CELLS).find(enough)
}

fn shown(cells: Option<usize>) -> String {
    cells.map_or("-".into(), |cells| cells.to_string())
}
