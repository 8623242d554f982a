//! Damaged sheets: some are refused always, others most of the time.

use super::laid::{full_and_active, lay};
use crate::random::Random;
use crate::Settings;

/// What is done to a sheet to damage it.
#[derive(Clone, Copy, Debug, PartialEq, Eq)]
pub enum Damage {
    /// One cell gets another level within 0 and the top level. The sheet may stay accepted.
    Cell,
    /// An index block's digits are copied over another of its batch. The sheet may stay accepted.
    Index,
    /// A spare cell is raised.
    Spare,
    /// Stage 0: an empty block stands before one that isn't empty.
    Hole,
    /// Stage 0: all k bits have active blocks and the last block that isn't empty is full.
    FullLast,
    /// One or two cells stand above the top level.
    Level,
    /// The sheet is too short or too long.
    Length,
}

impl Damage {
    /// Every damage.
    pub const ALL: [Damage; 7] = [
        Damage::Cell,
        Damage::Index,
        Damage::Spare,
        Damage::Hole,
        Damage::FullLast,
        Damage::Level,
        Damage::Length,
    ];

    /// A damaged copy of a sheet of n cells, or None where settings or sheet leave no room for it.
    pub fn apply(self, random: &mut Random, settings: &Settings, sheet: &[u8]) -> Option<Vec<u8>> {
        let mut sheet = sheet.to_vec();
        match self {
            Damage::Cell => alter_cell(random, settings, &mut sheet),
            Damage::Index => copy_index(random, settings, &mut sheet)?,
            Damage::Spare => raise_spare(random, settings, &mut sheet)?,
            Damage::Hole => make_hole(random, settings, &mut sheet)?,
            Damage::FullLast => end_full(random, settings, &mut sheet)?,
            Damage::Level => raise_above(random, settings, &mut sheet)?,
            Damage::Length => {
                let n = settings.n;
                let (shorter, longer) = (random.below(n), random.between(n + 1, 2 * n));
                sheet.resize(random.one_of(&[0, n - 1, n + 1, shorter, longer]), 0);
            }
        }
        Some(sheet)
    }
}

fn alter_cell(random: &mut Random, settings: &Settings, sheet: &mut [u8]) {
    let Settings { top, n, .. } = *settings;
    let cell = random.below(n);
    let another = usize::from(sheet[cell]) + random.between(1, top);
    sheet[cell] = (another % (top + 1)) as u8;
}

fn copy_index(random: &mut Random, settings: &Settings, sheet: &mut [u8]) -> Option<()> {
    let Settings { k, s, w, .. } = *settings;
    if s == 0 {
        return None;
    }
    let batch = &mut sheet[settings.batch(random.between(1, s - 1))];
    let (from, to) = (random.below(2 * (k - 1)), random.below(2 * (k - 1)));
    batch.copy_within(from * w..(from + 1) * w, to * w);
    Some(())
}

fn raise_spare(random: &mut Random, settings: &Settings, sheet: &mut [u8]) -> Option<()> {
    let Settings { k, top, n, m, .. } = *settings;
    let first = m * k + settings.index_cells();
    if first == n {
        return None;
    }
    sheet[random.between(first, n - 1)] = random.between(1, top) as u8;
    Some(())
}

/// At stage 0, empties one block or more before the last in use, or swaps one in use with an empty
/// one after it.
fn make_hole(random: &mut Random, settings: &Settings, sheet: &mut [u8]) -> Option<()> {
    let Settings { k, m, .. } = *settings;
    let used = used_at_stage_0(settings, sheet)?;
    if (1..m).contains(&used) && (used == 1 || random.below(2) == 0) {
        let (from, to) = (random.below(used), random.between(used, m - 1));
        sheet.copy_within(from * k..(from + 1) * k, to * k);
        sheet[from * k..][..k].fill(0);
        return Some(());
    }
    let before_last = used.checked_sub(1).filter(|&blocks| blocks > 0)?;
    let any = random.between(1, before_last);
    let holes = random.one_of(&[1, any]);
    for hole in random.choose(holes, before_last) {
        sheet[hole * k..][..k].fill(0);
    }
    Some(())
}

/// At stage 0, lays all k bits' active blocks with full ones between, a full one after them, and
/// empty ones at the end.
fn end_full(random: &mut Random, settings: &Settings, sheet: &mut [u8]) -> Option<()> {
    let Settings { k, m, .. } = *settings;
    used_at_stage_0(settings, sheet).filter(|_| m > k)?;
    let any = random.between(k + 1, m);
    let used = random.one_of(&[k + 1, m, any]);
    let places = random.choose(k, used - 1);
    let blocks = full_and_active(random, settings, used, &places);
    lay(settings, &blocks, sheet);
    Some(())
}

/// How many blocks there are up to the last that isn't empty, at stage 0.
fn used_at_stage_0(settings: &Settings, sheet: &[u8]) -> Option<usize> {
    let (blocks, rest) = sheet.split_at(settings.m * settings.k);
    let raised = |cells: &[u8]| cells.iter().any(|&level| level > 0);
    if raised(&rest[..settings.index_cells()]) {
        return None;
    }
    let last = blocks.chunks_exact(settings.k).rposition(raised);
    Some(last.map_or(0, |last| last + 1))
}

fn raise_above(random: &mut Random, settings: &Settings, sheet: &mut [u8]) -> Option<()> {
    let Settings { top, n, .. } = *settings;
    if top == 255 {
        return None;
    }
    for _ in 0..random.between(1, 2) {
        sheet[random.below(n)] = random.between(top + 1, 255) as u8;
    }
    Some(())
}
