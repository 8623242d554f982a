//! An adversary who reads the sheet: before each move of a staged sheet it sets the other bits so
//! that the move raises as many levels for nothing as it finds.

use crate::compiled::Compiled;
use crate::places::stage;
use second::Settings;

/// A run against a sheet.
struct Run {
    settings: Settings,
    compiled: Compiled,
    sheet: Vec<u8>,
    accepted: u64,
}

/// What the change of bit 0 would do.
#[derive(PartialEq, Eq, PartialOrd, Ord)]
enum Outlook {
    /// Stay at the stage.
    Stays,
    /// Move, and raise so many levels of the blocks.
    Moves(u64),
    /// End the run.
    Ends,
}

/// Changes accepted until the first Erase: bits 1 to k - 1 once each, then bit 0, and before each
/// move any of the others that makes the move dearer.
pub fn accepted(settings: &Settings) -> u64 {
    let mut run = Run {
        settings: *settings,
        compiled: Compiled::accept(settings),
        sheet: vec![0; settings.n],
        accepted: 0,
    };
    for bit in 1..settings.k {
        assert!(run.change(bit), "an erased sheet has a block for each bit");
    }
    while run.change(0) {
        if run.outlook(&run.sheet) > Outlook::Stays {
            run.spoil();
        }
    }
    run.accepted
}

impl Run {
    /// Changes a bit, unless that is answered Erase.
    fn change(&mut self, bit: usize) -> bool {
        let reply = self.compiled.change(&mut self.sheet, bit);
        assert!(
            matches!(reply.answer, 0 | 7),
            "a change is done or ends the run"
        );
        self.accepted += u64::from(reply.answer == 0);
        reply.answer == 0
    }

    /// What bit 0 would do to this sheet.
    fn outlook(&self, sheet: &[u8]) -> Outlook {
        let mut after = sheet.to_vec();
        if self.compiled.change(&mut after, 0).answer != 0 {
            return Outlook::Ends;
        }
        if stage(&self.settings, &after) == stage(&self.settings, sheet) {
            return Outlook::Stays;
        }
        Outlook::Moves(self.in_blocks(&after) - self.in_blocks(sheet))
    }

    /// The levels of the m blocks.
    fn in_blocks(&self, sheet: &[u8]) -> u64 {
        let cells = &sheet[..self.settings.m * self.settings.k];
        cells.iter().map(|&level| u64::from(level)).sum()
    }

    /// Changes other bits, within the stage, for as long as one of them makes the outlook worse.
    fn spoil(&mut self) {
        let mut best = self.outlook(&self.sheet);
        let mut bits: Vec<usize> = (1..self.settings.k).rev().collect();
        while let Some(bit) = bits.pop() {
            let mut tried = self.sheet.clone();
            let reply = self.compiled.change(&mut tried, bit);
            let stays = stage(&self.settings, &tried) == stage(&self.settings, &self.sheet);
            let outlook = self.outlook(&tried);
            if reply.answer == 0 && stays && outlook > best {
                (self.sheet, best) = (tried, outlook);
                self.accepted += 1;
                bits = (1..self.settings.k)
                    .rev()
                    .filter(|&other| other != bit)
                    .collect();
            }
        }
    }
}
