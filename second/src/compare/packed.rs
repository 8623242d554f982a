//! The order of blocks at stage 0: a hole, and a full block last, at every place.
//!
//! The shapes together have as many blocks as bits, one more, and more: also as many as one or two
//! runs of 64 cells hold, or one block off that. On these every place of a block is tried. The widest sheets
//! try the first and the last place of each 64 cells. Every sheet is held to what the rules say of
//! it, and not only to the model.

use super::case::{Call, Case};
use super::comparison::Comparison;
use super::size::Size;
use crate::sheets::{every, laid, State};
use crate::Settings;

/// A shape: the kind, k, L, and how many blocks.
type Shape = ([u64; 3], &'static [usize]);

const LIGHT: [Shape; 6] = [
    ([0, 2, 1], &[2, 3, 33]),
    ([0, 3, 2], &[3, 4, 22]),
    ([0, 8, 1], &[8, 9]),
    ([0, 64, 1], &[65]),
    ([1, 4, 1], &[4, 5, 17]),
    ([1, 8, 2], &[9]),
];

const MORE: [Shape; 9] = [
    ([0, 2, 1], &[4, 31, 32, 64, 65, 97]),
    ([0, 2, 255], &[2, 3, 33]),
    ([0, 3, 2], &[5, 21, 43]),
    ([0, 4, 3], &[4, 5, 6, 15, 16, 17, 33]),
    ([0, 8, 1], &[10, 15, 16, 17]),
    ([0, 64, 15], &[64, 65, 66]),
    ([1, 4, 1], &[6, 15, 16, 33]),
    ([1, 8, 2], &[8, 10, 16, 17]),
    ([1, 64, 3], &[64, 65, 66]),
];

/// The kind, k and L of sheets with the most cells.
const WIDEST: [[u64; 3]; 4] = [[0, 2, 1], [0, 64, 1], [1, 4, 1], [1, 64, 1]];

/// Settings whose every sequence of block states is run: the kind, k, L and m.
const SEQUENCES: [([u64; 3], usize); 3] = [([0, 2, 1], 6), ([0, 3, 2], 5), ([1, 4, 1], 5)];

/// The shapes of this size, and all of smaller sizes.
pub fn packed(comparison: &mut Comparison, size: Size) {
    each_place(comparison, &LIGHT);
    let fewer = usize::from(size == Size::Light);
    for (shape, blocks) in SEQUENCES {
        sequences(comparison, &with_blocks(shape, blocks - fewer));
    }
    if size == Size::Light {
        return;
    }
    each_place(comparison, &MORE);
    for [kind, k, top] in WIDEST {
        let settings = Settings::asked([kind, k, top, 16_384]);
        Rows::new(comparison, settings, (64 / settings.k).max(1)).all();
    }
}

fn each_place(comparison: &mut Comparison, shapes: &[Shape]) {
    for (shape, counts) in shapes {
        for &blocks in *counts {
            Rows::new(comparison, with_blocks(*shape, blocks), 1).all();
        }
    }
}

/// Settings with so many blocks, and one spare cell where they are an odd number.
fn with_blocks([kind, k, top]: [u64; 3], blocks: usize) -> Settings {
    let widest = Settings::asked([kind, k, top, 16_384]);
    let n = blocks * widest.k + widest.index_cells() + blocks % 2;
    Settings::asked([kind, k, top, n as u64])
}

/// Every sequence of block states: empty, full, or active with any bit, the weight by the block's
/// number. Each sheet is read and each bit changed.
fn sequences(comparison: &mut Comparison, settings: &Settings) {
    let Settings { k, top, m, .. } = *settings;
    for numbers in every(m, k as u8 + 1) {
        let state = |(place, &number): (usize, &u8)| match number {
            0 => State::Empty,
            1 => State::Full,
            _ => State::Active(usize::from(number) - 2, 1 + place % (k * top - 1)),
        };
        let blocks: Vec<State> = numbers.iter().enumerate().map(state).collect();
        let mut case = Case::on(Call::Read, settings, &laid(settings, &blocks));
        comparison.compare(&case);
        case.call = Call::Change;
        for bit in 0..k {
            case.bit = bit;
            comparison.compare(&case);
        }
    }
}

/// Rows of blocks for one record of settings.
struct Rows<'a, 'b> {
    comparison: &'a mut Comparison<'b>,
    settings: Settings,
    /// The first and the last place of each so many blocks are tried.
    each: usize,
    /// How many sheets there were: bits and weights vary with it.
    turn: usize,
}

impl<'a, 'b> Rows<'a, 'b> {
    fn new(comparison: &'a mut Comparison<'b>, settings: Settings, each: usize) -> Rows<'a, 'b> {
        let turn = 0;
        Rows {
            comparison,
            settings,
            each,
            turn,
        }
    }

    fn all(&mut self) {
        self.holes();
        self.alone();
        self.full_last();
        self.last_active();
        self.full_among();
        self.one_bit_without();
    }

    /// The places from the first up to but without the end that are tried.
    fn places(&self, first: usize, end: usize) -> impl Iterator<Item = usize> {
        let each = self.each;
        let tried = move |&place: &usize| [0, each - 1].contains(&(place % each));
        (first..end).filter(tried)
    }

    /// Active blocks of so many bits.
    fn active(&self, count: usize) -> Vec<State> {
        let Settings { k, top, .. } = self.settings;
        let weight = |place| 1 + (self.turn + 3 * place) % (k * top - 1);
        let block = |place| State::Active((self.turn + place) % k, weight(place));
        (0..count).map(block).collect()
    }

    /// Reads a sheet with these blocks and changes one bit, both of which are BadSheet or not.
    fn says(&mut self, blocks: &[State], accepted: bool) {
        let settings = &self.settings;
        let mut case = Case::on(Call::Read, settings, &laid(settings, blocks));
        case.bit = self.turn % settings.k;
        for call in [Call::Read, Call::Change] {
            case.call = call;
            let reply = self.comparison.compare(&case);
            let holds = reply.is_none_or(|reply| (reply.answer != 6) == accepted);
            self.comparison.require(holds, &case, || match accepted {
                true => String::from("the rules accept this order of blocks"),
                false => String::from("the rules refuse this order of blocks"),
            });
        }
        self.turn += 1;
    }

    /// A block that is emptied, at each place before the last in use, where all or some blocks are
    /// in use: full ones, active ones and then full ones, full ones and then active ones.
    fn holes(&mut self) {
        let Settings { k, m, .. } = self.settings;
        for used in [m, m / 2 + 1] {
            for active in [0, (k - 1).min(used), k.min(used)] {
                let full = vec![State::Full; used - active];
                let row = match active < k {
                    true => [self.active(active), full].concat(),
                    false => [full, self.active(active)].concat(),
                };
                self.says(&row, true);
                for hole in self.places(0, used - 1) {
                    let mut row = row.clone();
                    row[hole] = State::Empty;
                    self.says(&row, false);
                }
            }
        }
    }

    /// One block in use, active or full, at each place: it has to be the first.
    fn alone(&mut self) {
        for place in self.places(0, self.settings.m) {
            for block in [self.active(1)[0], State::Full] {
                let mut row = vec![State::Empty; place];
                row.push(block);
                self.says(&row, place == 0);
            }
        }
    }

    /// A full block last at each place: refused after k active ones, accepted after k - 1 of them.
    /// With the full ones before the k active ones it is accepted.
    fn full_last(&mut self) {
        let Settings { k, m, .. } = self.settings;
        for last in self.places(k, m) {
            let full = vec![State::Full; last + 1 - k];
            self.says(&[self.active(k), full.clone()].concat(), false);
            self.says(&[full.clone(), self.active(k)].concat(), true);
            self.says(&[self.active(k - 1), full].concat(), true);
        }
    }

    /// All m blocks in use, and the last active one at each place: it has to be the last in use.
    fn last_active(&mut self) {
        let Settings { k, m, .. } = self.settings;
        for place in self.places(k - 1, m).chain([m - 1]) {
            let active = self.active(k);
            let mut row = vec![State::Full; m];
            row[..k - 1].copy_from_slice(&active[..k - 1]);
            row[place] = active[k - 1];
            self.says(&row, place == m - 1);
        }
    }

    /// One full block, and as many as there is room for, at each place among the k active ones.
    fn full_among(&mut self) {
        let Settings { k, m, .. } = self.settings;
        for full in [1, m - k] {
            if k + full > m || full == 0 {
                continue;
            }
            for before in 0..=k {
                let mut row = self.active(k);
                row.splice(before..before, vec![State::Full; full]);
                self.says(&row, before < k);
            }
        }
    }

    /// Each bit in turn without an active block, and the last block full: alone, and with all m in
    /// use.
    fn one_bit_without(&mut self) {
        let Settings { k, m, .. } = self.settings;
        for full in [1, m - k + 1] {
            for bit in 0..k {
                let mut row = self.active(k);
                row.retain(|block| !matches!(*block, State::Active(held, _) if held == bit));
                row.resize(k - 1 + full, State::Full);
                self.says(&row, true);
            }
        }
    }
}
