//! The pictures of docs/RULES.md, drawn from sheets that the calls of this crate have made.

mod cells;
mod cycle;
mod marked;
mod plain;
mod sheet;
mod stages;

pub use sheet::{holder, Index, Parity, Shown};

/// Every picture: the name of its file and its text.
pub fn all() -> [(&'static str, String); 4] {
    [
        ("cycle.svg", cycle::draw()),
        ("plain.svg", plain::draw()),
        ("stages.svg", stages::draw()),
        ("move.svg", marked::draw()),
    ]
}
