//! The independent second program: bits kept on a sheet of cells whose levels only rise.

#![forbid(unsafe_code)]
#![deny(missing_docs)]

mod answer;
mod calls;
pub mod command;
pub mod compare;
pub mod drive;
mod flaw;
mod levels;
pub mod past;
pub mod pictures;
mod plain;
pub mod random;
mod settings;
pub mod sheets;
mod staged;
pub mod svg;
mod table;

pub use answer::Answer;
pub use calls::{change, erase, read};
pub use flaw::Flaw;
pub(crate) use levels::sum;
pub use settings::Settings;
