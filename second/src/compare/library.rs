//! What is compared: the four calls behind one interface, and the model as one library of them.

use crate::{change, erase, read, Answer, Flaw, Settings};

/// What a call answers: its number and its value.
#[derive(Clone, Copy, Debug, PartialEq, Eq)]
pub struct Reply {
    /// The answer's number.
    pub answer: usize,
    /// The value returned.
    pub value: usize,
}

impl Reply {
    /// What stands for a call that wrote where nothing was lent for writing, seen by the process
    /// that serves it.
    pub const OUTSIDE: Reply = Reply {
        answer: 1000,
        value: 0,
    };
    /// What stands for a call that ended the process that serves it.
    pub const ENDED: Reply = Reply {
        answer: 1001,
        value: 0,
    };
    /// What stands for a call that wasn't made: the process that serves it ended too often.
    pub const NOT_MADE: Reply = Reply {
        answer: 1002,
        value: 0,
    };
}

/// Four calls over lent slices. A record is 7 numbers: kind, k, L, n, m, s and w.
pub trait Library {
    /// Accepts the kind, k, L and n, or refuses them, and writes the record.
    fn settings(&self, asked: [usize; 4], record: &mut [usize]) -> Reply;
    /// Sets all cells of the sheet to 0.
    fn erase(&self, record: &[usize], sheet: &mut [u8]) -> Reply;
    /// Writes the bits of the sheet.
    fn read(&self, record: &[usize], sheet: &[u8], output: &mut [u8]) -> Reply;
    /// Changes one bit.
    fn change(&self, record: &[usize], sheet: &mut [u8], bit: usize) -> Reply;
}

/// The second program as a library, with one flaw or none.
#[derive(Clone, Copy, Debug)]
pub struct Model(pub Flaw);

impl Library for Model {
    fn settings(&self, asked: [usize; 4], record: &mut [usize]) -> Reply {
        let Ok(places) = <&mut [usize; 7]>::try_from(record) else {
            return Answer::BadShape.into();
        };
        let [kind, k, top, n] = asked.map(|number| number as u64);
        let (answer, settings) = self.0.during(|| Settings::accept(kind, k, top, n));
        *places = settings.numbers();
        answer.into()
    }

    fn erase(&self, record: &[usize], sheet: &mut [u8]) -> Reply {
        let settings = Settings::of(record);
        self.0.during(|| erase(&settings, sheet)).into()
    }

    fn read(&self, record: &[usize], sheet: &[u8], output: &mut [u8]) -> Reply {
        let settings = Settings::of(record);
        self.0.during(|| read(&settings, sheet, output)).into()
    }

    fn change(&self, record: &[usize], sheet: &mut [u8], bit: usize) -> Reply {
        let settings = Settings::of(record);
        self.0.during(|| change(&settings, sheet, bit)).into()
    }
}

impl From<Answer> for Reply {
    fn from(answer: Answer) -> Reply {
        Reply {
            answer: answer.number() as usize,
            value: answer.value() as usize,
        }
    }
}

impl Settings {
    /// The record of the kind, k, L and n; of zeros where they are refused.
    pub(super) fn asked([kind, k, top, n]: [u64; 4]) -> Settings {
        Settings::accept(kind, k, top, n).1
    }

    /// The record's 7 numbers.
    pub(super) fn numbers(&self) -> [usize; 7] {
        [self.kind, self.k, self.top, self.n, self.m, self.s, self.w]
    }

    /// The record of 7 numbers; of any other number of places, the record of zeros, which every
    /// call refuses alike.
    pub(super) fn of(record: &[usize]) -> Settings {
        let &[kind, k, top, n, m, s, w] = record else {
            return Settings::default();
        };
        Settings {
            kind,
            k,
            top,
            n,
            m,
            s,
            w,
        }
    }
}
