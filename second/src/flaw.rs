//! A switch that makes the model wrong in one place, to see that a comparison notices.

use std::cell::Cell;

/// A wrong reading of the rules. It is switched per thread; a new thread has none.
#[derive(Clone, Copy, Debug, PartialEq, Eq)]
pub enum Flaw {
    /// The model as it should be.
    None,
    /// The first raised cell from the left is taken as a cycle's start.
    FirstRaisedStart,
    /// A move records the old bits and then changes.
    OldBitsAtMove,
    /// A free parity block of odd weight reads as a 1 of a bit that no index names.
    FreeBlockRead,
    /// A free parity block is raised when taken, also where its parity is already 1.
    FreeBlockAlwaysRaised,
    /// The second-lowest empty block is taken where there is one.
    SecondEmpty,
    /// The index of a parity block that fills is left as it was.
    FullIndexKept,
    /// The search for a later stage stops at the first stage with too few live blocks.
    StopAtFirst,
    /// BadLevel's value is the last cell above the top level.
    LastBadLevel,
    /// Spare cells are not looked at.
    SpareIgnored,
    /// A change tests for BadBit after BadLevel.
    BitAfterLevel,
    /// Index digits stand least significant first.
    DigitsLowFirst,
    /// A parity block's highest-numbered cell below the top level is raised.
    LastCellRaised,
    /// Stage 0: blocks may stand in any order.
    OrderIgnored,
    /// Stage 0 of a staged sheet: blocks may stand in any order.
    StagedOrderIgnored,
    /// Stage 0: an empty block may stand before one that isn't empty.
    HoleAccepted,
    /// Stage 0: an empty block may stand before a full one, though not before an active one.
    HoleBeforeFull,
    /// Stage 0: the last block that isn't empty may be full where all k bits have active blocks.
    FullLastAccepted,
    /// Stage 0: block m - 1 alone may not be full where all k bits have active blocks.
    LastByNumber,
    /// Stage 0: the last block that isn't empty may never be full.
    FullLastNever,
}

thread_local! {
    static SWITCH: Cell<Flaw> = const { Cell::new(Flaw::None) };
}

impl Flaw {
    /// Every flaw, without `None`.
    pub const ALL: [Flaw; 19] = [
        Flaw::FirstRaisedStart,
        Flaw::OldBitsAtMove,
        Flaw::FreeBlockRead,
        Flaw::FreeBlockAlwaysRaised,
        Flaw::SecondEmpty,
        Flaw::FullIndexKept,
        Flaw::StopAtFirst,
        Flaw::LastBadLevel,
        Flaw::SpareIgnored,
        Flaw::BitAfterLevel,
        Flaw::DigitsLowFirst,
        Flaw::LastCellRaised,
        Flaw::OrderIgnored,
        Flaw::StagedOrderIgnored,
        Flaw::HoleAccepted,
        Flaw::HoleBeforeFull,
        Flaw::FullLastAccepted,
        Flaw::LastByNumber,
        Flaw::FullLastNever,
    ];

    /// Makes the calls of this thread run with this flaw alone.
    pub fn switch_on(self) {
        SWITCH.set(self);
    }

    /// Runs the work with this flaw alone, and without any flaw afterwards.
    pub fn during<T>(self, work: impl FnOnce() -> T) -> T {
        self.switch_on();
        let result = work();
        Flaw::None.switch_on();
        result
    }

    pub(crate) fn is_on(self) -> bool {
        SWITCH.get() == self
    }
}
