//! One call, to be done again and again by the library, by the second program or as a pass over the cells.

use crate::compiled::{Compiled, Reply};
use second::{Answer, Settings};
use std::hint::black_box;

/// Which call.
#[derive(Clone, Copy, Debug, PartialEq, Eq)]
pub enum Call {
    /// Erase the sheet.
    Erase,
    /// Read the bits.
    Read,
    /// Change a bit.
    Change,
}

/// Who does the job.
#[derive(Clone, Copy, Debug, PartialEq, Eq)]
pub enum By {
    /// The compiled library.
    Library,
    /// The second program.
    Second,
    /// Nobody: the cells are summed and nothing else.
    Sum,
    /// Nobody: the greatest cell is found and nothing else.
    Greatest,
}

impl By {
    /// All, in the order of a round.
    pub const ALL: [By; 4] = [By::Library, By::Second, By::Sum, By::Greatest];
}

/// A call with its settings and its sheet.
#[derive(Clone, Debug)]
pub struct Job {
    /// The settings.
    pub settings: Settings,
    /// The sheet before the call.
    pub sheet: Vec<u8>,
    call: Call,
    /// A change of this bit; without it, of each bit in turn.
    bit: Option<usize>,
    /// The number of the answer that is expected.
    answer: u64,
    compiled: Compiled,
}

/// Places of an output.
const PLACES: usize = 64;

impl Job {
    /// A call that is answered Done, whichever bit is changed.
    pub fn new(settings: &Settings, sheet: Vec<u8>, call: Call) -> Job {
        Job {
            settings: *settings,
            sheet,
            call,
            bit: None,
            answer: 0,
            compiled: Compiled::accept(settings),
        }
    }

    /// A change of one bit, with the number of its answer.
    pub fn change(settings: &Settings, sheet: Vec<u8>, bit: usize, answer: u64) -> Job {
        Job {
            bit: Some(bit),
            answer,
            ..Job::new(settings, sheet, Call::Change)
        }
    }

    /// A reading, with the number of its answer.
    pub fn reading(settings: &Settings, sheet: Vec<u8>, answer: u64) -> Job {
        Job {
            answer,
            ..Job::new(settings, sheet, Call::Read)
        }
    }

    /// The bit for this turn, of so many turns.
    pub fn bit(&self, turn: usize, turns: usize) -> usize {
        self.bit.unwrap_or(turn * self.settings.k / turns)
    }

    /// Does the job once, and says whether it was answered as expected.
    #[inline(never)]
    pub fn does(&self, by: By, sheet: &mut [u8], bit: usize) -> bool {
        match by {
            By::Library => self.ours(sheet, bit, &mut [0; PLACES]).answer == self.answer,
            By::Second => self.theirs(sheet, bit, &mut [0; PLACES]).number() == self.answer,
            By::Sum => {
                black_box(sum(black_box(sheet)));
                true
            }
            By::Greatest => {
                black_box(greatest(black_box(sheet)));
                true
            }
        }
    }

    /// Holds the library to the second program, for each bit, before anything is measured; says where they differ.
    pub fn check(&self) -> Result<(), String> {
        let k = self.settings.k;
        (0..k).try_for_each(|turn| self.check_bit(self.bit(turn, k)))
    }

    /// Holds them to each other for this bit, and to the answer that is expected.
    fn check_bit(&self, bit: usize) -> Result<(), String> {
        let (mut ours, mut theirs) = (self.sheet.clone(), self.sheet.clone());
        let (mut our_bits, mut their_bits) = ([0; PLACES], [0; PLACES]);
        let reply = self.ours(&mut ours, bit, &mut our_bits);
        let answer = self.theirs(&mut theirs, bit, &mut their_bits);
        let same = [
            (answer.number(), answer.value()) == (reply.answer, reply.value),
            reply.answer == self.answer,
            ours == theirs,
            our_bits == their_bits,
        ];
        match same {
            [true, true, true, true] => Ok(()),
            _ => Err(format!(
                "{:?} {:?}, bit {bit}: {reply:?} and {answer:?}; answers, the one expected, cells, output are the same: {same:?}",
                self.call, self.settings
            )),
        }
    }

    fn ours(&self, sheet: &mut [u8], bit: usize, output: &mut [u8; PLACES]) -> Reply {
        let reply = match self.call {
            Call::Erase => self.compiled.erase(sheet),
            Call::Read => self.compiled.read(sheet, output),
            Call::Change => self.compiled.change(sheet, bit),
        };
        black_box(output);
        reply
    }

    fn theirs(&self, sheet: &mut [u8], bit: usize, output: &mut [u8; PLACES]) -> Answer {
        let answer = match self.call {
            Call::Erase => second::erase(&self.settings, sheet),
            Call::Read => second::read(&self.settings, sheet, output),
            Call::Change => second::change(&self.settings, sheet, bit),
        };
        black_box(output);
        answer
    }
}

/// A yardstick: the sum of the levels, in 32 bits.
#[inline(never)]
pub fn sum(cells: &[u8]) -> u32 {
    cells.iter().map(|&level| u32::from(level)).sum()
}

/// A yardstick, and the cheapest look at every cell: the greatest level.
#[inline(never)]
pub fn greatest(cells: &[u8]) -> u8 {
    cells.iter().copied().fold(0, u8::max)
}
