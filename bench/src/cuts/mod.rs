//! Power cuts: every change of many runs is cut at each place, and the torn sheet is read.

pub mod change;
pub mod expected;
pub mod marked;
pub mod order;
pub mod reader;
pub mod runs;
pub mod search;
pub mod sort;
pub mod tables;
pub mod tally;
pub mod torn;
