//! Accepted settings.

use crate::foreign::{self, Record};
use crate::numbers::narrow;
use crate::Error;
use core::fmt;

/// How many bits a sheet keeps, at the most.
///
/// An output of so many places is long enough for a reading of any sheet:
///
/// ```
/// use harpginger::{Error, Kind, Settings, View, MOST_BITS};
///
/// let settings = Settings::accept(Kind::Plain, 2, 1, 4)?;
/// let mut out = [0; MOST_BITS];
/// assert_eq!(View::over(settings, &[0, 1, 0, 0]).read_into(&mut out), Ok(1));
/// # Ok::<(), Error>(())
/// ```
pub const MOST_BITS: usize = 64;

/// The highest top level of a cell.
///
/// ```
/// use harpginger::{Kind, Settings, MOST_LEVEL};
///
/// assert!(Settings::accept(Kind::Plain, 4, MOST_LEVEL, 16).is_ok());
/// assert!(Settings::accept(Kind::Plain, 4, MOST_LEVEL + 1, 16).is_err());
/// ```
pub const MOST_LEVEL: usize = 255;

/// How many cells a sheet has, at the most.
///
/// ```
/// use harpginger::{Kind, Settings, MOST_CELLS};
///
/// assert!(Settings::accept(Kind::Plain, 4, 2, MOST_CELLS).is_ok());
/// assert!(Settings::accept(Kind::Plain, 4, 2, MOST_CELLS + 1).is_err());
/// ```
pub const MOST_CELLS: usize = 16_384;

/// The kind of a sheet. Later versions of the library may add kinds.
///
/// ```
/// use harpginger::{Kind, Settings};
///
/// let guarantee = |kind| Settings::accept(kind, 64, 15, 16_384).map(|s| s.guarantee());
/// assert_eq!(guarantee(Kind::Plain), Ok(185_343));
/// assert_eq!(guarantee(Kind::Staged), Ok(224_355));
/// ```
#[derive(Clone, Copy, Debug, PartialEq, Eq, Hash)]
#[must_use]
#[non_exhaustive]
pub enum Kind {
    /// Index-less: 2 to 64 bits, with bits times top level even.
    Plain,
    /// Staged indexing: 4, 8, 16, 32 or 64 bits.
    Staged,
}

/// Settings that were accepted. There is no other way to make them, so no call of this crate is
/// handed a forged record.
///
/// ```
/// use harpginger::{Error, Kind, Settings};
///
/// let settings = Settings::accept(Kind::Staged, 4, 2, 28)?;
/// assert_eq!(settings.guarantee(), 17);
/// assert_eq!(settings.blocks(), 4);
/// assert_eq!(Settings::accept(Kind::Staged, 4, 2, 27), Err(Error::BadShape));
/// # Ok::<(), Error>(())
/// ```
#[derive(Clone, Copy, PartialEq, Eq, Hash)]
#[must_use]
pub struct Settings {
    record: Record,
    guarantee: u64,
}

impl Settings {
    /// Accepts settings, or refuses them with [`Error::BadShape`]: k bits (2 to 64), the top level
    /// of a cell (1 to 255) and n cells (at most 16,384), with room for k blocks of k cells beside
    /// the index cells of a staged sheet.
    ///
    /// ```
    /// use harpginger::{Kind, Settings};
    ///
    /// assert!(Settings::accept(Kind::Plain, 3, 2, 9).is_ok());
    /// assert!(Settings::accept(Kind::Plain, 3, 1, 9).is_err());
    /// ```
    pub fn accept(kind: Kind, k: usize, top: usize, n: usize) -> Result<Settings, Error> {
        let kind = match kind {
            Kind::Plain => 0,
            Kind::Staged => 1,
        };
        let (record, guarantee) = foreign::settings(kind, k, top, n)?;
        Ok(Settings { record, guarantee })
    }

    /// How many changes an erased sheet accepts, at the least, before one is answered Erase.
    ///
    /// ```
    /// # use harpginger::{Error, Kind, Settings};
    /// assert_eq!(Settings::accept(Kind::Staged, 4, 2, 28)?.guarantee(), 17);
    /// # Ok::<(), Error>(())
    /// ```
    #[must_use]
    pub fn guarantee(&self) -> u64 {
        self.guarantee
    }

    /// The kind of the sheet.
    ///
    /// ```
    /// # use harpginger::{Error, Kind, Settings};
    /// assert_eq!(Settings::accept(Kind::Staged, 4, 2, 28)?.kind(), Kind::Staged);
    /// # Ok::<(), Error>(())
    /// ```
    pub fn kind(&self) -> Kind {
        match self.record[0] {
            0 => Kind::Plain,
            _ => Kind::Staged,
        }
    }

    /// k: how many bits a sheet keeps, and how many cells a block has.
    ///
    /// ```
    /// # use harpginger::{Error, Kind, Settings};
    /// assert_eq!(Settings::accept(Kind::Staged, 4, 2, 28)?.bits(), 4);
    /// # Ok::<(), Error>(())
    /// ```
    #[must_use]
    pub fn bits(&self) -> usize {
        narrow(self.record[1])
    }

    /// The top level of a cell.
    ///
    /// ```
    /// # use harpginger::{Error, Kind, Settings};
    /// assert_eq!(Settings::accept(Kind::Staged, 4, 2, 28)?.top(), 2);
    /// # Ok::<(), Error>(())
    /// ```
    #[must_use]
    pub fn top(&self) -> usize {
        narrow(self.record[2])
    }

    /// n: how many cells a sheet has.
    ///
    /// ```
    /// # use harpginger::{Error, Kind, Settings};
    /// assert_eq!(Settings::accept(Kind::Staged, 4, 2, 28)?.cells(), 28);
    /// # Ok::<(), Error>(())
    /// ```
    #[must_use]
    pub fn cells(&self) -> usize {
        narrow(self.record[3])
    }

    /// How many blocks a sheet has. They stand first, and after them the index cells.
    ///
    /// ```
    /// # use harpginger::{Error, Kind, Settings};
    /// assert_eq!(Settings::accept(Kind::Staged, 4, 2, 28)?.blocks(), 4);
    /// # Ok::<(), Error>(())
    /// ```
    #[must_use]
    pub fn blocks(&self) -> usize {
        narrow(self.record[4])
    }

    /// How many stages a staged sheet has, stage 0 included; 0 for a plain one.
    ///
    /// ```
    /// # use harpginger::{Error, Kind, Settings};
    /// assert_eq!(Settings::accept(Kind::Staged, 4, 2, 28)?.stages(), 2);
    /// # Ok::<(), Error>(())
    /// ```
    #[must_use]
    pub fn stages(&self) -> usize {
        narrow(self.record[5])
    }

    /// How many cells an index block of a staged sheet has; 0 for a plain one.
    ///
    /// ```
    /// # use harpginger::{Error, Kind, Settings};
    /// assert_eq!(Settings::accept(Kind::Staged, 4, 2, 28)?.width(), 2);
    /// # Ok::<(), Error>(())
    /// ```
    #[must_use]
    pub fn width(&self) -> usize {
        narrow(self.record[6])
    }

    pub(crate) fn record(&self) -> &Record {
        &self.record
    }
}

impl fmt::Debug for Settings {
    fn fmt(&self, to: &mut fmt::Formatter) -> fmt::Result {
        to.debug_struct("Settings")
            .field("kind", &self.kind())
            .field("bits", &self.bits())
            .field("top", &self.top())
            .field("cells", &self.cells())
            .field("blocks", &self.blocks())
            .field("stages", &self.stages())
            .field("width", &self.width())
            .field("guarantee", &self.guarantee())
            .finish()
    }
}
