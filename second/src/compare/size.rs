//! The size of a run of the comparison, by which the groups do less or more.

/// How much is run.
#[derive(Clone, Copy, Debug, PartialEq, Eq)]
pub enum Size {
    /// A part of each group, for the self-check and for slow tools.
    Light,
    /// All groups.
    Default,
    /// All groups, and the longest runs.
    Long,
}
