//! Bits on a sheet of flash cells whose levels only rise: Harpginger's proved library, called safely.
//!
//! A cell is one byte, its level, and only erasing the whole sheet lowers it. Harpginger keeps k
//! bits on such a sheet and puts erasing off: [`Settings::guarantee`] says how many changes an
//! erased sheet accepts at the least. The calls themselves are compiled from proved code; this
//! crate adds lengths and lifetimes, and no rule of its own.
//!
//! ```
//! use harpginger::{Error, Kind, Settings, Sheet};
//!
//! let settings = Settings::accept(Kind::Plain, 2, 1, 4)?;
//! assert_eq!(settings.guarantee(), 3);
//!
//! let mut cells = [0; 4];
//! let mut sheet = Sheet::erased(settings, &mut cells)?;
//! assert_eq!(sheet.change(0), Ok(1));
//! assert_eq!(sheet.set(1, true), Ok(1));
//! assert_eq!(sheet.set(1, true), Ok(0));
//! assert_eq!(sheet.change(0), Ok(1));
//! assert_eq!((sheet.bit(0), sheet.bit(1)), (Ok(false), Ok(true)));
//! assert_eq!(sheet.change(0), Err(Error::Erase));
//! # Ok::<(), Error>(())
//! ```
//!
//! The crate is `no_std`. The feature `alloc`, which is on unless it is turned off, adds the bits
//! of a sheet as a `Vec`. Nothing is kept between calls, so sheets are independent, on any thread.
//!
//! # The sheet on a part
//!
//! The cells are levels in memory: the caller reads them from the part, and after a change programs
//! the cells that stand lower on the part than here, each to its new level. A change that raised
//! one level raised one cell, so a power cut leaves the old sheet or the new one; every plain change
//! is so. A change of a staged sheet may raise several levels, and a sheet that is cut between two of
//! them can be accepted with bits that are neither the old nor the new ones; so can one whose erase
//! is cut, of either kind. What is right for every change is two copies of the sheet, written in
//! turn, and a note outside both that says which is the good one: the example `barge` keeps them in
//! a file.
//!
//! A sheet does not carry its settings. With others the same cells may be accepted, and give other
//! bits, so keep kind, bits, top level and cells with it:
//!
//! ```
//! use harpginger::{Error, Kind, Settings, View};
//!
//! let cells = [0, 2, 1, 0, 0, 0, 0, 0, 0, 0, 0, 0, 0, 0, 0, 0];
//! let held = |pens, pen| View::over(Settings::accept(Kind::Plain, pens, 2, 16)?, &cells).bit(pen);
//! assert_eq!((held(4, 0)?, held(4, 1)?), (false, true));
//! assert_eq!((held(2, 0)?, held(2, 1)?), (true, false));
//! # Ok::<(), Error>(())
//! ```
//!
//! # Linking
//!
//! The library is the archive `libharpginger.a`. In the repository `checks/native` writes it for
//! this machine to `target/native`, and `checks/native TARGET` for another one to
//! `target/native/TARGET`; the repository's checks leave the one for x86-64 in
//! `target/staticlib` too. It is found there. `HARPGINGER_ARCHIVE` names another folder at build
//! time: absolute, or from where cargo was started, or from this package's folder. So does Cargo's
//! configuration:
//!
//! ```toml
//! [env]
//! HARPGINGER_ARCHIVE = { value = "lib", relative = true }
//! ```

#![no_std]
#![deny(missing_docs)]
// One place has them, and says why each is right.
#![deny(unsafe_code, clippy::as_conversions)]
#![deny(clippy::undocumented_unsafe_blocks)]

#[cfg(feature = "alloc")]
extern crate alloc;

mod error;
#[allow(unsafe_code)]
mod foreign;
mod numbers;
mod settings;
mod sheet;
mod view;

pub use error::Error;
pub use settings::{Kind, Settings, MOST_BITS, MOST_CELLS, MOST_LEVEL};
pub use sheet::Sheet;
pub use view::View;

/// The version of the C interface that this crate is written for.
///
/// ```
/// assert_eq!(harpginger::version(), harpginger::VERSION);
/// ```
pub const VERSION: u64 = 3;

/// The version of the C interface that the linked archive has. Another one than [`VERSION`] may
/// give answers that this crate only knows as [`Error::Unknown`].
///
/// ```
/// assert_eq!(harpginger::version(), 3);
/// ```
#[must_use]
pub fn version() -> u64 {
    foreign::version()
}
