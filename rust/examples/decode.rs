//! Reads a sheet that has come back: kind, number of bits, top level and the level of every cell,
//! as words.

use harpginger::{Error, Kind, Settings, View, MOST_BITS};
use std::process::ExitCode;

fn main() -> ExitCode {
    let words: Vec<String> = std::env::args().skip(1).collect();
    let (kind, numbers) = match words.split_first() {
        Some((word, rest)) if word == "plain" => (Kind::Plain, rest),
        Some((word, rest)) if word == "staged" => (Kind::Staged, rest),
        _ => return usage(),
    };
    let numbers: Result<Vec<u8>, _> = numbers.iter().map(|word| word.parse()).collect();
    let Ok([bits, top, cells @ ..]) = numbers.as_deref() else {
        return usage();
    };
    match held(kind, *bits, *top, cells) {
        Ok(held) => {
            println!("{held}");
            ExitCode::SUCCESS
        }
        Err(refusal) => {
            println!("{refusal}");
            ExitCode::from(1)
        }
    }
}

fn usage() -> ExitCode {
    eprintln!(
        "usage: decode plain|staged BITS TOP LEVEL..: the levels of all cells, 0 to 255 each"
    );
    ExitCode::from(2)
}

/// The bits that are 1, in words.
fn held(kind: Kind, bits: u8, top: u8, cells: &[u8]) -> Result<String, Error> {
    let settings = Settings::accept(kind, bits.into(), top.into(), cells.len())?;
    let mut places = [0; MOST_BITS];
    View::over(settings, cells).read_into(&mut places)?;
    let ones = (0..settings.bits()).filter(|&bit| places[bit] == 1);
    let list: String = ones.map(|bit| format!(" {bit}")).collect();
    Ok(format!(
        "held:{}",
        if list.is_empty() { " none" } else { &list }
    ))
}
