//! The past of a plain sheet: a run of changes from the erased sheet that ends in it, or that there
//! is none.
//!
//! Which plain sheets are accepted, by what a change does and not by the rules that a reading asks
//! for: a change begins the lowest-numbered empty block, and only for a bit without an active one. So
//! the run is made, one block finished before the next is begun, up to a block that no change begins.
//! What one block is, is told as a reading tells it.

pub mod later;
mod search;
pub mod told;

use crate::calls::check_shape_and_length;
use crate::levels::check_levels;
use crate::plain::Block;
use crate::{change, erase, sum, Answer, Settings};
use std::fmt::{self, Display, Formatter};
use std::str::FromStr;

pub use search::reached;

/// A stretch of a run: one bit, changed so many times one after the other.
#[derive(Clone, Copy, Debug, PartialEq, Eq)]
pub struct Turns {
    /// The bit's number.
    pub bit: usize,
    /// How many changes.
    pub times: usize,
}

impl Display for Turns {
    fn fmt(&self, f: &mut Formatter) -> fmt::Result {
        match self.times {
            1 => write!(f, "bit {}, once", self.bit),
            times => write!(f, "bit {}, {times} times", self.bit),
        }
    }
}

/// A stretch as it is displayed.
impl FromStr for Turns {
    type Err = String;

    fn from_str(text: &str) -> Result<Turns, String> {
        let parts = || {
            let (bit, times) = text.strip_prefix("bit ")?.split_once(", ")?;
            let times = match times {
                "once" => 1,
                times => times.strip_suffix(" times")?.parse().ok()?,
            };
            let bit = bit.parse().ok()?;
            Some(Turns { bit, times })
        };
        parts().ok_or(format!("no stretch of a run: {text}"))
    }
}

/// A run of changes from the erased sheet that ends in this plain sheet: one stretch for each block
/// that isn't empty. Where there is none, why: BadShape where no plain sheet has the settings,
/// BadLength, BadLevel or BadSheet.
pub fn run_to(settings: &Settings, sheet: &[u8]) -> Result<Vec<Turns>, Answer> {
    if settings.kind != 0 {
        return Err(Answer::BadShape);
    }
    check_shape_and_length(settings, sheet)?;
    check_levels(settings, sheet)?;
    let (blocks, spare) = sheet.split_at(settings.m * settings.k);
    let mut blocks = blocks.chunks_exact(settings.k);
    let mut run = Vec::new();
    let mut active = vec![false; settings.k];
    for cells in blocks.by_ref() {
        match Block::decode(settings.top, cells)? {
            Block::Empty => break,
            block => run.push(turns(settings, block, &mut active)?),
        }
    }
    // A change takes the lowest-numbered empty block, and no change takes a spare cell.
    match sum(spare) == 0 && blocks.all(|cells| sum(cells) == 0) {
        true => Ok(run),
        false => Err(Answer::BadSheet),
    }
}

/// The changes that make an empty block this one, given which bits have active blocks before it.
/// Only a bit that has none begins a block.
fn turns(settings: &Settings, block: Block, active: &mut [bool]) -> Result<Turns, Answer> {
    let without = active.iter().position(|&has| !has);
    match block {
        Block::Active { bit, weight } if !active[bit] => {
            active[bit] = true;
            Ok(Turns { bit, times: weight })
        }
        Block::Full => Ok(Turns {
            bit: without.ok_or(Answer::BadSheet)?,
            times: settings.k * settings.top,
        }),
        _ => Err(Answer::BadSheet),
    }
}

/// How many changes a run has.
pub fn length(run: &[Turns]) -> u64 {
    run.iter().map(|turns| turns.times as u64).sum()
}

/// The bits of a run, change by change.
pub fn bits(run: &[Turns]) -> impl Iterator<Item = usize> + '_ {
    run.iter()
        .flat_map(|turns| std::iter::repeat_n(turns.bit, turns.times))
}

/// Erases a plain sheet and makes the run's changes: the sheet at the end, or the first answer that
/// isn't Done with one level raised.
pub fn replay(settings: &Settings, run: &[Turns]) -> Result<Vec<u8>, Answer> {
    let mut sheet = vec![settings.top as u8; settings.n];
    let erased = erase(settings, &mut sheet);
    if erased != Answer::Done(settings.guarantee()) {
        return Err(erased);
    }
    for bit in bits(run) {
        match change(settings, &mut sheet, bit) {
            Answer::Done(1) => {}
            other => return Err(other),
        }
    }
    Ok(sheet)
}
