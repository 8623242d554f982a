//! Levels of cells: their sum, and that none is above the top level.

use crate::{Answer, Flaw, Settings};

/// The sum of levels.
pub fn sum(cells: &[u8]) -> u64 {
    u64::from(cells.iter().map(|&level| u32::from(level)).sum::<u32>())
}

/// Check 5, over all cells.
pub fn check_levels(settings: &Settings, sheet: &[u8]) -> Result<(), Answer> {
    let too_high = |&level: &u8| usize::from(level) > settings.top;
    if !too_high(&sheet.iter().copied().fold(0, u8::max)) {
        return Ok(());
    }
    let cell = match Flaw::LastBadLevel.is_on() {
        false => sheet.iter().position(too_high),
        true => sheet.iter().rposition(too_high),
    };
    Err(Answer::BadLevel(cell.unwrap_or(0) as u64))
}
