//! The comparison of this program with the compiled library and with the compiled drive program.
//!
//! A library is anything with the four calls ([`Library`]): the compiled one (linked, or served by
//! another process where this machine's processor is not the archive's), the model itself, the
//! model with one flaw, or an impostor. Each [`Case`] is run on the model and on the library,
//! and everything is compared: the answer, its value, every place of the record, every cell after,
//! every output place after, and guards on both sides of each slice that was lent.
//!
//! The inputs stand in groups:
//!
//! - `numbers`: the numbers of the rules, against what the rules say and not only the model;
//! - `settings`: every kind, k and L around the limits, n around its edges, and huge numbers;
//! - `forged`: records that acceptance never gives;
//! - `refusals`: every overlap of faults;
//! - `tiny`: every assignment of levels for the tiniest settings;
//! - `packed`: a hole and a full block last at every place, and other orders of blocks at stage 0;
//! - `past`: of the tiniest plain settings, every sheet that a run of changes ends in, by that run;
//! - `moves`: changes that go on to a later stage, some over a stage with too few live blocks;
//! - `calls`: random calls on accepted and damaged sheets of every stage;
//! - `runs`: from erase to Erase, with the counts of demand 3;
//! - `records`: the drive program's whole output on files of records.

mod calls;
mod case;
mod comparison;
mod forged;
mod impostor;
mod lent;
mod library;
mod moves;
mod numbers;
mod packed;
pub mod past;
mod plan;
mod programs;
mod records;
mod refusals;
pub mod refused;
mod runs;
mod served;
mod settings;
mod size;
mod tiny;

pub use case::{Call, Case};
pub use comparison::{Comparison, Difference, Tally};
pub use impostor::Impostor;
pub use library::{Library, Model, Reply};
pub use plan::{Group, Plan};
pub use programs::{compare_programs, Compiled, FileTally, Program};
pub use records::{example, some_file};
pub use served::Served;
pub use size::Size;
