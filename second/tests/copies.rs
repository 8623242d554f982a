//! Two copies of a sheet on a part, with a note that says which of them is good: docs/RULES.md's ways, cut at any pulse.

mod common;

use common::accept;
use second::random::Random;
use second::{change, read, Answer, Settings};

/// Cells of two copies, which only an erase lowers, and the note.
struct Part {
    settings: Settings,
    copies: [Vec<u8>; 2],
    good: usize,
    /// How many pulses there are yet before the cut.
    left: usize,
}

/// The power is cut.
struct Cut;

impl Part {
    fn new(settings: Settings) -> Part {
        Part {
            settings,
            copies: [vec![0; settings.n], vec![0; settings.n]],
            good: 0,
            left: usize::MAX,
        }
    }

    /// The bits of a copy, where it is accepted.
    fn bits(&self, copy: usize) -> Option<Vec<u8>> {
        let mut bits = vec![0; self.settings.k];
        let answer = read(&self.settings, &self.copies[copy], &mut bits);
        (answer.number() == 0).then_some(bits)
    }

    /// One pulse: a cell of a copy goes up a level, or is erased.
    fn pulse(&mut self, copy: usize, cell: usize, erase: bool) -> Result<(), Cut> {
        self.left = self.left.checked_sub(1).ok_or(Cut)?;
        let level = &mut self.copies[copy][cell];
        *level = if erase { 0 } else { *level + 1 };
        Ok(())
    }

    /// The sheet after a change of this bit; on Erase the bits are put on an erased one.
    fn changed(&self, bit: usize) -> Vec<u8> {
        let mut sheet = self.copies[self.good].clone();
        if change(&self.settings, &mut sheet, bit) == Answer::Erase {
            let mut bits = self.bits(self.good).expect("the good copy is accepted");
            bits[bit] ^= 1;
            sheet.fill(0);
            for held in (0..bits.len()).filter(|&held| bits[held] == 1) {
                assert_eq!(change(&self.settings, &mut sheet, held).number(), 0);
            }
        }
        sheet
    }

    /// Whether a cell of the copy would have to fall.
    fn above(&self, copy: usize, new: &[u8]) -> bool {
        let mut pairs = self.copies[copy].iter().zip(new);
        pairs.any(|(old, new)| old > new)
    }

    /// Which copy is written: of a plain sheet the good one, unless it was Erase.
    fn written(&self, new: &[u8]) -> usize {
        match self.settings.kind == 0 && !self.above(self.good, new) {
            true => self.good,
            false => 1 - self.good,
        }
    }

    /// Writes a copy, and then moves the note there.
    fn write(&mut self, new: &[u8]) -> Result<(), Cut> {
        let copy = self.written(new);
        if self.above(copy, new) {
            for cell in 0..new.len() {
                self.pulse(copy, cell, true)?;
            }
        }
        for (cell, &level) in new.iter().enumerate() {
            while self.copies[copy][cell] < level {
                self.pulse(copy, cell, false)?;
            }
        }
        assert_eq!(self.copies[copy], new, "it is read back");
        self.good = copy;
        Ok(())
    }
}

/// Changes of random bits, many of them cut; gives how many were made, and how often a copy that was cut read a third thing.
fn run(settings: Settings) -> (u64, u64) {
    let (mut part, mut random) = (Part::new(settings), Random::new(14));
    let (mut made, mut third, mut held) = (0, 0, vec![0; settings.k]);
    for _ in 0..20 * settings.guarantee() {
        let bit = random.below(settings.k);
        let new = part.changed(bit);
        let most = random.one_of(&[4, 16, 64, 1_024]);
        part.left = random.below(most);
        let cut = part.write(&new).is_err();
        let mut after = held.clone();
        after[bit] ^= 1;
        let is_third = |bits: Vec<u8>| bits != held && bits != after;
        match cut {
            true => third += u64::from(part.bits(1 - part.good).is_some_and(is_third)),
            false => (made, held) = (made + 1, after),
        }
        assert_eq!(part.bits(part.good).as_ref(), Some(&held));
    }
    (made, third)
}

#[test]
fn the_good_copy_is_never_torn() {
    for settings in [
        accept(0, 4, 2, 16),
        accept(1, 4, 2, 28),
        accept(1, 8, 3, 120),
    ] {
        let (made, _) = run(settings);
        assert!(made > 3 * settings.guarantee(), "both copies were erased");
    }
}

/// Without the note a reader would take some of these copies for good.
#[test]
fn reading_does_not_tell_the_good_copy() {
    let (_, third) = run(accept(1, 4, 2, 28));
    assert!(third > 0);
}
