//! The answers that are refusals.

use crate::numbers::narrow;
use core::{error, fmt};

/// What a call answers where it isn't Done. A refused call has changed no cell and no place of the
/// output.
///
/// The checks of a call run in the order of the answers' numbers, and the first refusal ends it.
/// Later versions of the library may add answers, so a `match` needs an arm for the others.
///
/// ```
/// use harpginger::{Error, Kind, Settings};
///
/// let refusal = Settings::accept(Kind::Plain, 3, 1, 9).unwrap_err();
/// assert_eq!(refusal, Error::BadShape);
/// assert_eq!(refusal.to_string(), "a setting is outside the limits");
/// ```
#[derive(Clone, Copy, Debug, PartialEq, Eq, Hash)]
#[must_use]
#[non_exhaustive]
pub enum Error {
    /// A setting outside the limits.
    BadShape,
    /// The sheet's length isn't the settings' number of cells.
    BadLength,
    /// Reading: fewer places than bits.
    ShortOutput,
    /// There is no bit of this number.
    BadBit,
    /// A cell above the top level: the first such cell.
    BadLevel(usize),
    /// The sheet breaks the rules of its kind. At stage 0, plain or staged: a block is neither
    /// empty, full nor on a bit's cycle; two active blocks have one bit; an empty block stands
    /// before one that isn't empty; all bits have active blocks and the last block that isn't empty
    /// is full; or a spare cell isn't 0. Calls that ran to their end never make such a sheet, and
    /// every plain sheet that is accepted is one that changes make from an erased sheet.
    BadSheet,
    /// Change: there is no place for this bit before the sheet is erased.
    Erase,
    /// An answer of this number, which this crate doesn't know. The library that this crate is
    /// written for gives none; one of another [`version`](crate::version) may.
    Unknown(u64),
}

impl Error {
    /// The answer's number in the rules and in C.
    ///
    /// ```
    /// use harpginger::Error;
    ///
    /// assert_eq!(Error::BadLevel(3).number(), 5);
    /// assert_eq!(Error::Erase.number(), 7);
    /// ```
    #[must_use]
    pub fn number(self) -> u64 {
        match self {
            Error::BadShape => 1,
            Error::BadLength => 2,
            Error::ShortOutput => 3,
            Error::BadBit => 4,
            Error::BadLevel(_) => 5,
            Error::BadSheet => 6,
            Error::Erase => 7,
            Error::Unknown(number) => number,
        }
    }

    /// What a call gave: its value if it was Done, else the refusal.
    pub(crate) fn outcome(number: u64, value: u64) -> Result<u64, Error> {
        Err(match number {
            0 => return Ok(value),
            1 => Error::BadShape,
            2 => Error::BadLength,
            3 => Error::ShortOutput,
            4 => Error::BadBit,
            5 => Error::BadLevel(narrow(value)),
            6 => Error::BadSheet,
            7 => Error::Erase,
            _ => Error::Unknown(number),
        })
    }
}

impl fmt::Display for Error {
    fn fmt(&self, to: &mut fmt::Formatter) -> fmt::Result {
        match self {
            Error::BadShape => write!(to, "a setting is outside the limits"),
            Error::BadLength => write!(to, "the sheet has another length than its settings"),
            Error::ShortOutput => write!(to, "the output has fewer places than there are bits"),
            Error::BadBit => write!(to, "there is no bit of this number"),
            Error::BadLevel(cell) => write!(to, "cell {cell} is above the top level"),
            Error::BadSheet => write!(to, "the sheet breaks the rules of its kind"),
            Error::Erase => write!(to, "no place for this bit before the sheet is erased"),
            Error::Unknown(number) => write!(to, "answer {number}, which this crate does not know"),
        }
    }
}

impl error::Error for Error {}

#[cfg(test)]
mod tests {
    use super::Error;

    #[test]
    fn a_number_and_its_answer_agree() {
        for number in (1..=9).chain([u64::MAX]) {
            let refusal = Error::outcome(number, 6).unwrap_err();
            assert_eq!(refusal.number(), number);
            assert_eq!(refusal == Error::Unknown(number), number > 7);
        }
        assert_eq!(Error::outcome(0, u64::MAX), Ok(u64::MAX));
        assert_eq!(Error::outcome(5, 6), Err(Error::BadLevel(6)));
    }
}
