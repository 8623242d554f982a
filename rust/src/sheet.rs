//! A sheet over lent cells.

use crate::{foreign, Error, Settings, View};
#[cfg(feature = "alloc")]
use alloc::vec::Vec;
use core::fmt;

/// A sheet over cells that the caller lends, one byte each. It keeps nothing else: drop it, and the
/// cells are the whole of the sheet. What only reads it is [`View`]'s.
///
/// ```
/// use harpginger::{Error, Kind, Settings, Sheet};
///
/// let settings = Settings::accept(Kind::Plain, 4, 2, 16)?;
/// let mut cells = vec![0; settings.cells()];
/// Sheet::erased(settings, &mut cells)?.change(1)?;
/// assert_eq!(cells[..4], [0, 1, 0, 0]);
///
/// let sheet = Sheet::over(settings, &mut cells);
/// assert_eq!((sheet.bit(0), sheet.bit(1)), (Ok(false), Ok(true)));
/// # Ok::<(), Error>(())
/// ```
#[must_use]
pub struct Sheet<'a> {
    settings: Settings,
    cells: &'a mut [u8],
}

impl<'a> Sheet<'a> {
    /// A sheet over these cells as they are. Nothing is checked here: each call checks the cells.
    ///
    /// ```
    /// use harpginger::{Error, Kind, Settings, Sheet};
    ///
    /// let settings = Settings::accept(Kind::Plain, 2, 1, 4)?;
    /// let mut cells = [0, 1, 0, 2];
    /// assert_eq!(Sheet::over(settings, &mut cells).change(0), Err(Error::BadLevel(3)));
    /// # Ok::<(), Error>(())
    /// ```
    pub fn over(settings: Settings, cells: &'a mut [u8]) -> Sheet<'a> {
        Sheet { settings, cells }
    }

    /// A sheet over these cells, erased, or [`Error::BadLength`].
    ///
    /// ```
    /// use harpginger::{Error, Kind, Settings, Sheet};
    ///
    /// let settings = Settings::accept(Kind::Plain, 2, 1, 4)?;
    /// let mut cells = [9; 4];
    /// assert_eq!(Sheet::erased(settings, &mut cells)?.cells(), [0; 4]);
    /// assert!(Sheet::erased(settings, &mut [9; 5]).is_err());
    /// # Ok::<(), Error>(())
    /// ```
    pub fn erased(settings: Settings, cells: &'a mut [u8]) -> Result<Sheet<'a>, Error> {
        let mut sheet = Sheet::over(settings, cells);
        sheet.erase()?;
        Ok(sheet)
    }

    /// Sets every cell to 0 and gives the guarantee; or BadLength.
    ///
    /// ```
    /// # use harpginger::{Error, Kind, Settings, Sheet};
    /// # let settings = Settings::accept(Kind::Plain, 2, 1, 4)?;
    /// # let mut cells = [9; 4];
    /// let mut sheet = Sheet::over(settings, &mut cells);
    /// assert_eq!(sheet.erase(), Ok(3));
    /// # Ok::<(), Error>(())
    /// ```
    pub fn erase(&mut self) -> Result<u64, Error> {
        foreign::erase(self.settings.record(), self.cells)
    }

    /// Flips one bit and no other, and gives how many levels that raised; or BadLength, BadBit,
    /// BadLevel, BadSheet or Erase. After [`Error::Erase`] the sheet is as it was, and another bit
    /// may still find a place.
    ///
    /// ```
    /// # use harpginger::{Error, Kind, Settings, Sheet};
    /// # let settings = Settings::accept(Kind::Plain, 2, 1, 4)?;
    /// # let mut cells = [0; 4];
    /// let mut sheet = Sheet::over(settings, &mut cells);
    /// assert_eq!(sheet.change(1), Ok(1));
    /// assert_eq!(sheet.change(2), Err(Error::BadBit));
    /// # Ok::<(), Error>(())
    /// ```
    pub fn change(&mut self, bit: usize) -> Result<u64, Error> {
        foreign::change(self.settings.record(), self.cells, bit)
    }

    /// Gives one bit this value, and says how many levels that raised: 0 where the bit has the
    /// value already, also on a sheet with no place for a change of it. It refuses what
    /// [`change`](Sheet::change) refuses, in the same order; Erase only where the bit has to
    /// change.
    ///
    /// ```
    /// # use harpginger::{Error, Kind, Settings, Sheet};
    /// # let settings = Settings::accept(Kind::Plain, 2, 1, 4)?;
    /// # let mut cells = [0; 4];
    /// let mut sheet = Sheet::over(settings, &mut cells);
    /// assert_eq!(sheet.set(1, true), Ok(1));
    /// assert_eq!(sheet.set(1, true), Ok(0));
    /// assert_eq!(sheet.set(2, true), Err(Error::BadBit));
    /// # Ok::<(), Error>(())
    /// ```
    pub fn set(&mut self, bit: usize, value: bool) -> Result<u64, Error> {
        match self.bit(bit)? == value {
            true => Ok(0),
            false => self.change(bit),
        }
    }

    /// The sheet, to be read only.
    ///
    /// ```
    /// # use harpginger::{Error, Kind, Settings, Sheet};
    /// # let settings = Settings::accept(Kind::Plain, 2, 1, 4)?;
    /// # let mut cells = [0, 1, 0, 0];
    /// let sheet = Sheet::over(settings, &mut cells);
    /// assert_eq!(sheet.view().ones(), Ok(1));
    /// # Ok::<(), Error>(())
    /// ```
    pub fn view(&self) -> View<'_> {
        View::over(self.settings, self.cells)
    }

    /// As [`View::read_into`].
    ///
    /// ```
    /// # use harpginger::{Error, Kind, Settings, Sheet};
    /// # let settings = Settings::accept(Kind::Plain, 2, 1, 4)?;
    /// # let mut cells = [0, 1, 0, 0];
    /// let mut out = [7; 3];
    /// assert_eq!(Sheet::over(settings, &mut cells).read_into(&mut out), Ok(1));
    /// assert_eq!(out, [0, 1, 7]);
    /// # Ok::<(), Error>(())
    /// ```
    pub fn read_into(&self, out: &mut [u8]) -> Result<usize, Error> {
        self.view().read_into(out)
    }

    /// As [`View::read`]. The feature `alloc` has it.
    ///
    /// ```
    /// # use harpginger::{Error, Kind, Settings, Sheet};
    /// # let settings = Settings::accept(Kind::Plain, 2, 1, 4)?;
    /// # let mut cells = [0, 1, 0, 0];
    /// assert_eq!(Sheet::over(settings, &mut cells).read()?, [false, true]);
    /// # Ok::<(), Error>(())
    /// ```
    #[cfg(feature = "alloc")]
    pub fn read(&self) -> Result<Vec<bool>, Error> {
        self.view().read()
    }

    /// As [`View::bit`].
    ///
    /// ```
    /// # use harpginger::{Error, Kind, Settings, Sheet};
    /// # let settings = Settings::accept(Kind::Plain, 2, 1, 4)?;
    /// # let mut cells = [0, 1, 0, 0];
    /// assert_eq!(Sheet::over(settings, &mut cells).bit(1), Ok(true));
    /// # Ok::<(), Error>(())
    /// ```
    pub fn bit(&self, bit: usize) -> Result<bool, Error> {
        self.view().bit(bit)
    }

    /// The settings.
    ///
    /// ```
    /// # use harpginger::{Error, Kind, Settings, Sheet};
    /// # let settings = Settings::accept(Kind::Plain, 2, 1, 4)?;
    /// assert_eq!(Sheet::over(settings, &mut [0; 4]).settings(), settings);
    /// # Ok::<(), Error>(())
    /// ```
    pub fn settings(&self) -> Settings {
        self.settings
    }

    /// The cells' levels.
    ///
    /// ```
    /// # use harpginger::{Error, Kind, Settings, Sheet};
    /// # let settings = Settings::accept(Kind::Plain, 2, 1, 4)?;
    /// assert_eq!(Sheet::over(settings, &mut [0, 1, 0, 0]).cells(), [0, 1, 0, 0]);
    /// # Ok::<(), Error>(())
    /// ```
    #[must_use]
    pub fn cells(&self) -> &[u8] {
        self.cells
    }
}

impl fmt::Debug for Sheet<'_> {
    fn fmt(&self, to: &mut fmt::Formatter) -> fmt::Result {
        self.view().describe("Sheet", to)
    }
}
