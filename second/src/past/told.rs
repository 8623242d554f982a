//! What the command `past` says of a plain sheet: the run that ends in it, or why there is none.

use super::{length, run_to, Turns};
use crate::{Answer, Settings};

/// What the command says, and the status it ends with.
#[derive(Clone, Debug, PartialEq, Eq)]
pub struct Said {
    /// The text, whole lines.
    pub text: String,
    /// 0 where what was asked for is told, 1 where no run ends in the sheet, 2 where nothing is told.
    pub status: u8,
}

/// What is said of a plain sheet with so many bits and this top level.
pub fn plain(bits: u8, top: u8, sheet: &[u8]) -> Said {
    let cells = sheet.len();
    let (_, settings) = Settings::accept(0, bits.into(), top.into(), cells as u64);
    let (text, status) = match run_to(&settings, sheet) {
        Ok(run) => (told(&run), 0),
        Err(Answer::BadShape) => (
            format!(
                "no plain sheet of {cells} cells has {bits} bits and the top level {top} (BadShape): are all levels given, each as a word?\n"
            ),
            2,
        ),
        Err(refusal) => (none(refusal), 1),
    };
    Said { text, status }
}

/// A run: how many changes, and a line for each stretch.
fn told(run: &[Turns]) -> String {
    let mut text = match length(run) {
        0 => String::from("0 changes: it is an erased sheet\n"),
        1 => String::from("1 change from an erased sheet ends in it:\n"),
        changes => format!("{changes} changes from an erased sheet end in it:\n"),
    };
    for turns in run {
        text += &format!("{turns}\n");
    }
    text
}

/// Why no run ends in the sheet.
fn none(refusal: Answer) -> String {
    match refusal {
        Answer::BadLevel(cell) => {
            format!("none: cell {cell} is above the top level (BadLevel), where no call puts it\n")
        }
        _ => format!(
            "none: the cells break the rules ({refusal:?}): no run of changes from an erased sheet ends in them\n"
        ),
    }
}
