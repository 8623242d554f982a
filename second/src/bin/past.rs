//! Says how a plain sheet that has come back can have been made: a run of changes from an erased sheet
//! that ends in it, or that there is none.
//!
//! ```text
//! past plain BITS TOP LEVEL..
//! past --table
//! past --no-past
//! ```
//!
//! - `plain`: number of bits, top level and the level of every cell, each a word of its own.
//! - `--table`: prints a table over every assignment of levels of tiny plain settings: how many are
//!   accepted, how many changes reach, and how many have a run.
//! - `--no-past`: prints a search for the smallest accepted staged sheets that no run ends in.
//!
//! The exit status is 0 where that is told, 1 where no run ends in the plain sheet, and 2 where
//! nothing is told: of a staged sheet, for which nothing is claimed, of settings that no sheet has,
//! for wrong words, where the table's counts do not agree, and where nothing can be written.

use second::command::said;
use std::io::{stderr, stdout, Write};
use std::process::ExitCode;

fn main() -> ExitCode {
    let words = std::env::args_os().skip(1);
    let words: Vec<String> = words
        .map(|word| word.to_string_lossy().into_owned())
        .collect();
    let said = said(&words);
    let written = match said.status {
        2 => stderr().write_all(said.text.as_bytes()),
        _ => stdout().write_all(said.text.as_bytes()),
    };
    match written {
        Ok(()) => ExitCode::from(said.status),
        Err(wrong) => {
            eprintln!("past: {wrong}");
            ExitCode::from(2)
        }
    }
}
