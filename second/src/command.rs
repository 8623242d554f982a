//! The command `past`: what is asked of it in words, and what it says.

use crate::compare::past;
use crate::past::later;
use crate::past::told::{plain, Said};

const USAGE: &str = "\
usage: past plain BITS TOP LEVEL..: number of bits, top level and the level of every cell, each a word of its own
       past --table: every sheet of tiny plain settings is searched for its past
       past --no-past: small staged sheets are searched for one without a past
";

const STAGED: &str = "\
of staged sheets nothing is claimed: an accepted one of a later stage need not have a past (docs/RULES.md)
";

/// What the command says to these words.
pub fn said(words: &[String]) -> Said {
    let words: Vec<&str> = words.iter().map(String::as_str).collect();
    let (text, status) = match words[..] {
        ["--help" | "-h"] => (String::from(USAGE), 0),
        ["--no-past"] => (later::table(), 0),
        ["--table"] => match past::table() {
            Ok(table) => (table, 0),
            Err(wrong) => (wrong + "\n", 2),
        },
        ["staged", ..] => (String::from(STAGED), 2),
        ["plain", ref words @ ..] => match numbers(words) {
            Ok(numbers) => return of_numbers(&numbers),
            Err(wrong) => (wrong + USAGE, 2),
        },
        _ => (String::from(USAGE), 2),
    };
    Said { text, status }
}

/// The numbers that these words are, or the first that is none.
fn numbers(words: &[&str]) -> Result<Vec<u8>, String> {
    let number = |word: &&str| {
        word.parse()
            .map_err(|_| format!("'{word}' is no number from 0 to 255\n"))
    };
    words.iter().map(number).collect()
}

/// Number of bits, top level and the levels of all cells.
fn of_numbers(numbers: &[u8]) -> Said {
    match *numbers {
        [bits, top, ref sheet @ ..] if !sheet.is_empty() => plain(bits, top, sheet),
        _ => Said {
            text: String::from(USAGE),
            status: 2,
        },
    }
}
