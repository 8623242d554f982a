//! What the benchmarks share: the compiled library, the sheets it is measured on, clock and tables.

#![deny(missing_docs)]

pub mod adversary;
pub mod bits;
pub mod compiled;
pub mod count;
pub mod cuts;
pub mod endurance;
pub mod fetches;
pub mod files;
pub mod forms;
pub mod job;
pub mod layout;
pub mod measured;
pub mod moves;
pub mod page;
pub mod picture;
pub mod places;
pub mod programs;
pub mod rows;
pub mod runs;
pub mod sheets;
pub mod sizes;
pub mod slowest;
pub mod summary;
pub mod table;
pub mod timing;
pub mod trace;
pub mod valgrind;
