//! The answers of the calls, with their numbers and values.

/// What a call answers, with the value it returns where that isn't always 0.
#[derive(Clone, Copy, Debug, PartialEq, Eq)]
pub enum Answer {
    /// Accepted. Settings and erase: the guarantee; reading: the number of bits that are 1;
    /// change: levels raised.
    Done(u64),
    /// A setting outside the table.
    BadShape,
    /// The sheet's length isn't n.
    BadLength,
    /// Reading: fewer than k places.
    ShortOutput,
    /// Change: bit number k or more.
    BadBit,
    /// A cell above the top level; the first such cell.
    BadLevel(u64),
    /// The sheet rules are broken.
    BadSheet,
    /// Change: the maps find no place.
    Erase,
    /// The drive program only.
    BadRecord,
}

impl Answer {
    /// The answer's number, 0 to 8.
    pub fn number(self) -> u64 {
        match self {
            Answer::Done(_) => 0,
            Answer::BadShape => 1,
            Answer::BadLength => 2,
            Answer::ShortOutput => 3,
            Answer::BadBit => 4,
            Answer::BadLevel(_) => 5,
            Answer::BadSheet => 6,
            Answer::Erase => 7,
            Answer::BadRecord => 8,
        }
    }

    /// The value returned: 0 for a refusal, unless a rule names another.
    pub fn value(self) -> u64 {
        match self {
            Answer::Done(value) | Answer::BadLevel(value) => value,
            _ => 0,
        }
    }
}
