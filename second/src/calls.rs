//! The three calls on a lent sheet: erase, read and change.
//!
//! Every call decodes the whole lent sheet into a value of its own, works on that value, and
//! encodes it back at the very end. So a refusal, which ends a call early, changes nothing.

use crate::levels::check_levels;
use crate::plain::Whole;
use crate::staged::Cut;
use crate::{sum, Answer, Flaw, Settings};
use std::ops::Range;

/// Sets all cells of the sheet to 0.
pub fn erase(settings: &Settings, sheet: &mut [u8]) -> Answer {
    if let Err(refusal) = check_shape_and_length(settings, sheet) {
        return refusal;
    }
    sheet.fill(0);
    Answer::Done(settings.guarantee())
}

/// Writes the k bits, bit 0 first, each as 0 or 1, and touches no place after them.
pub fn read(settings: &Settings, sheet: &[u8], output: &mut [u8]) -> Answer {
    match try_read(settings, sheet, output) {
        Ok(ones) => Answer::Done(ones),
        Err(refusal) => refusal,
    }
}

/// Changes one bit by raising levels.
pub fn change(settings: &Settings, sheet: &mut [u8], bit: usize) -> Answer {
    match try_change(settings, sheet, bit) {
        Ok(raised) => Answer::Done(raised),
        Err(refusal) => refusal,
    }
}

fn try_read(settings: &Settings, sheet: &[u8], output: &mut [u8]) -> Result<u64, Answer> {
    check_shape_and_length(settings, sheet)?;
    let places = output.get_mut(..settings.k).ok_or(Answer::ShortOutput)?;
    check_levels(settings, sheet)?;
    let bits = Sheet::decode(settings, sheet)?.bits(settings);
    places.copy_from_slice(&bits);
    Ok(sum(&bits))
}

fn try_change(settings: &Settings, sheet: &mut [u8], bit: usize) -> Result<u64, Answer> {
    check_shape_and_length(settings, sheet)?;
    if Flaw::BitAfterLevel.is_on() {
        check_levels(settings, sheet)?;
    }
    if bit >= settings.k {
        return Err(Answer::BadBit);
    }
    check_levels(settings, sheet)?;
    let mut decoded = Sheet::decode(settings, sheet)?;
    if !decoded.change(bit) {
        let mut cut = Cut::later(settings, sheet, decoded.stage()).ok_or(Answer::Erase)?;
        cut.move_here(decoded.bits(settings), bit);
        decoded = Sheet::Cut(cut);
    }
    let before = sum(sheet);
    decoded.encode(settings, sheet);
    Ok(sum(sheet) - before)
}

/// Checks 1 and 2.
pub(crate) fn check_shape_and_length(settings: &Settings, sheet: &[u8]) -> Result<(), Answer> {
    if !settings.is_accepted() {
        return Err(Answer::BadShape);
    }
    if sheet.len() != settings.n {
        return Err(Answer::BadLength);
    }
    Ok(())
}

/// A sheet, decoded.
enum Sheet {
    /// Stage 0.
    Whole(Whole),
    /// Stage 1 and up.
    Cut(Cut),
}

impl Sheet {
    /// Check 6: finds the stage and decodes by its rules.
    fn decode(settings: &Settings, sheet: &[u8]) -> Result<Sheet, Answer> {
        let raised = |cells: Range<usize>| sheet[cells].iter().any(|&level| level > 0);
        let spare = settings.m * settings.k + settings.index_cells()..settings.n;
        if raised(spare) && !Flaw::SpareIgnored.is_on() {
            return Err(Answer::BadSheet);
        }
        let stage = (1..settings.s).rev().find(|&r| raised(settings.batch(r)));
        match stage {
            None => Ok(Sheet::Whole(Whole::decode(settings, sheet)?)),
            Some(stage) => Ok(Sheet::Cut(Cut::decode(settings, sheet, stage)?)),
        }
    }

    fn stage(&self) -> usize {
        match self {
            Sheet::Whole(_) => 0,
            Sheet::Cut(cut) => cut.stage,
        }
    }

    /// The k bits, bit 0 first.
    fn bits(&self, settings: &Settings) -> Vec<u8> {
        let mut bits = vec![0; settings.k];
        match self {
            Sheet::Whole(whole) => whole.write_bits(&mut bits),
            Sheet::Cut(cut) => cut.write_bits(&mut bits),
        }
        bits
    }

    /// Changes the bit within the stage, or answers false and changes nothing.
    fn change(&mut self, bit: usize) -> bool {
        match self {
            Sheet::Whole(whole) => whole.change(bit),
            Sheet::Cut(cut) => cut.change(bit),
        }
    }

    fn encode(&self, settings: &Settings, sheet: &mut [u8]) {
        match self {
            Sheet::Whole(whole) => whole.encode(settings, sheet),
            Sheet::Cut(cut) => cut.encode(settings, sheet),
        }
    }
}
