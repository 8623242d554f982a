//! A sheet that is only read.

use crate::foreign;
use crate::numbers::narrow;
use crate::{Error, Settings, MOST_BITS};
#[cfg(feature = "alloc")]
use alloc::vec::Vec;
use core::fmt;

/// A sheet that is only read, over cells that the caller lends: also where they can't be written,
/// as flash that is mapped into memory. No cell is copied.
///
/// ```
/// use harpginger::{Error, Kind, Settings, View};
///
/// static CELLS: [u8; 4] = [0, 1, 0, 0];
///
/// let settings = Settings::accept(Kind::Plain, 2, 1, 4)?;
/// let view = View::over(settings, &CELLS);
/// assert_eq!((view.bit(0), view.bit(1)), (Ok(false), Ok(true)));
/// # Ok::<(), Error>(())
/// ```
#[derive(Clone, Copy)]
#[must_use]
pub struct View<'a> {
    settings: Settings,
    cells: &'a [u8],
}

impl<'a> View<'a> {
    /// A view of these cells as they are. Nothing is checked here: each call checks the cells.
    ///
    /// ```
    /// use harpginger::{Error, Kind, Settings, View};
    ///
    /// let settings = Settings::accept(Kind::Plain, 2, 1, 4)?;
    /// assert_eq!(View::over(settings, &[0, 1, 0, 2]).ones(), Err(Error::BadLevel(3)));
    /// # Ok::<(), Error>(())
    /// ```
    pub fn over(settings: Settings, cells: &'a [u8]) -> View<'a> {
        View { settings, cells }
    }

    /// Writes the bits to the first places, each as 0 or 1, bit 0 first, touches no place after
    /// them, and gives how many are 1; or BadLength, ShortOutput, BadLevel or BadSheet.
    ///
    /// ```
    /// # use harpginger::{Error, Kind, Settings, View};
    /// # let settings = Settings::accept(Kind::Plain, 2, 1, 4)?;
    /// let view = View::over(settings, &[0, 1, 0, 0]);
    /// let mut out = [7; 3];
    /// assert_eq!(view.read_into(&mut out), Ok(1));
    /// assert_eq!(out, [0, 1, 7]);
    /// assert_eq!(view.read_into(&mut out[..1]), Err(Error::ShortOutput));
    /// # Ok::<(), Error>(())
    /// ```
    pub fn read_into(&self, out: &mut [u8]) -> Result<usize, Error> {
        foreign::read(self.settings.record(), self.cells, out).map(narrow)
    }

    /// The bits, bit 0 first; or BadLength, BadLevel or BadSheet. The feature `alloc` has it.
    ///
    /// ```
    /// # use harpginger::{Error, Kind, Settings, View};
    /// # let settings = Settings::accept(Kind::Plain, 2, 1, 4)?;
    /// let view = View::over(settings, &[0, 1, 0, 0]);
    /// assert_eq!(view.read()?, [false, true]);
    /// # Ok::<(), Error>(())
    /// ```
    #[cfg(feature = "alloc")]
    pub fn read(&self) -> Result<Vec<bool>, Error> {
        let mut places = [0; MOST_BITS];
        self.read_into(&mut places)?;
        let bits = places.iter().take(self.settings.bits());
        Ok(bits.map(|&place| place == 1).collect())
    }

    /// How many bits are 1; or BadLength, BadLevel or BadSheet.
    ///
    /// ```
    /// # use harpginger::{Error, Kind, Settings, View};
    /// # let settings = Settings::accept(Kind::Plain, 2, 1, 4)?;
    /// assert_eq!(View::over(settings, &[0, 1, 0, 0]).ones(), Ok(1));
    /// # Ok::<(), Error>(())
    /// ```
    pub fn ones(&self) -> Result<usize, Error> {
        self.read_into(&mut [0; MOST_BITS])
    }

    /// Whether one bit is 1; or BadLength, BadBit, BadLevel or BadSheet.
    ///
    /// ```
    /// # use harpginger::{Error, Kind, Settings, View};
    /// # let settings = Settings::accept(Kind::Plain, 2, 1, 4)?;
    /// let view = View::over(settings, &[0, 1, 0, 0]);
    /// assert_eq!(view.bit(1), Ok(true));
    /// assert_eq!(view.bit(2), Err(Error::BadBit));
    /// # Ok::<(), Error>(())
    /// ```
    pub fn bit(&self, bit: usize) -> Result<bool, Error> {
        let mut places = [0; MOST_BITS];
        match self.read_into(&mut places) {
            // A reading knows no bit number, so BadBit takes its place here: checks go by number.
            Err(refusal) if refusal.number() < Error::BadBit.number() => Err(refusal),
            _ if bit >= self.settings.bits() => Err(Error::BadBit),
            Err(refusal) => Err(refusal),
            Ok(_) => Ok(places.get(bit) == Some(&1)),
        }
    }

    /// The settings.
    ///
    /// ```
    /// # use harpginger::{Error, Kind, Settings, View};
    /// # let settings = Settings::accept(Kind::Plain, 2, 1, 4)?;
    /// assert_eq!(View::over(settings, &[0; 4]).settings(), settings);
    /// # Ok::<(), Error>(())
    /// ```
    pub fn settings(&self) -> Settings {
        self.settings
    }

    /// The cells' levels.
    ///
    /// ```
    /// # use harpginger::{Error, Kind, Settings, View};
    /// # let settings = Settings::accept(Kind::Plain, 2, 1, 4)?;
    /// assert_eq!(View::over(settings, &[0, 1, 0, 0]).cells(), [0, 1, 0, 0]);
    /// # Ok::<(), Error>(())
    /// ```
    #[must_use]
    pub fn cells(&self) -> &'a [u8] {
        self.cells
    }

    /// One line under this name: a sheet has too many cells to print each.
    pub(crate) fn describe(&self, name: &str, to: &mut fmt::Formatter) -> fmt::Result {
        let cells = self.cells.len();
        let sum: u64 = self.cells.iter().copied().map(u64::from).sum();
        write!(to, "{name} {{ cells: {cells}, sum_of_levels: {sum} }}")
    }
}

impl fmt::Debug for View<'_> {
    fn fmt(&self, to: &mut fmt::Formatter) -> fmt::Result {
        self.describe("View", to)
    }
}
