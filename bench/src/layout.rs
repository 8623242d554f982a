//! The tables of figures: which words name a row, which figures a file keeps, and which of them the page shows.

/// A table of a part.
#[derive(Debug, PartialEq, Eq)]
pub struct Layout {
    /// The part, whose file it stands in.
    pub part: &'static str,
    /// Its title.
    pub title: &'static str,
    /// The heads of the words that name a row.
    pub words: &'static [&'static str],
    /// How many of them are not numbers.
    pub left: usize,
    /// The heads of the figures.
    pub figures: &'static [&'static str],
    /// The places of the figures that the page shows, in its order.
    pub shown: &'static [usize],
}

/// The parts that are measured on a processor.
pub const PARTS: [&str; 7] = [
    "calls", "forms", "moves", "runs", "programs", "counts", "fetches",
];

/// The ratio to the second program.
pub const TO_SECOND: &str = "/ second program";
/// The ratio to the sum.
pub const TO_SUM: &str = "/ sum";
/// The ratio to the greatest byte.
pub const TO_GREATEST: &str = "/ greatest byte";

const TIMES: [&str; 7] = [
    "library, ns",
    "second program, ns",
    "sum, ns",
    "greatest byte, ns",
    TO_SECOND,
    TO_SUM,
    TO_GREATEST,
];
const COUNTS: [&str; 7] = [
    "library, instructions",
    "second program, instructions",
    "sum, instructions",
    "greatest byte, instructions",
    TO_SECOND,
    TO_SUM,
    TO_GREATEST,
];
const FETCHES: [&str; 4] = [
    "library, fetches of a cell",
    "library, most of one cell",
    "greatest byte, fetches of a cell",
    "greatest byte, most of one cell",
];

/// A table of calls, in time or in instructions.
const fn of_calls(
    part: &'static str,
    title: &'static str,
    words: &'static [&'static str],
    figures: &'static [&'static str; 7],
) -> Layout {
    Layout {
        part,
        title,
        words,
        left: words.len(),
        figures,
        shown: &[0, 6, 5, 4],
    }
}

/// A table that shows every figure.
const fn whole(
    part: &'static str,
    title: &'static str,
    words: &'static [&'static str],
    left: usize,
    figures: &'static [&'static str],
) -> Layout {
    Layout {
        part,
        title,
        words,
        left,
        figures,
        shown: ALL.split_at(figures.len()).0,
    }
}

/// A table of fetches by a call: those of the greatest byte are the same in every row, and not shown.
const fn of_fetches(title: &'static str) -> Layout {
    Layout {
        shown: &[0, 1],
        ..whole("fetches", title, &CALL, CALL.len(), &FETCHES)
    }
}

/// The places of all figures.
const ALL: &[usize] = &[0, 1, 2, 3];

const CALL: [&str; 3] = ["settings", "stage", "blocks in use"];
const MOVE: [&str; 4] = ["settings", "run", "from stage", "to stage"];
const AFTER: [&str; 3] = ["settings", "stage", "call"];

/// All tables, in the order of the page.
pub const LAYOUTS: [Layout; 16] = [
    of_calls("calls", "Reading", &CALL, &TIMES),
    of_calls("calls", "Change of one bit", &CALL, &TIMES),
    of_calls("calls", "Erase", &["settings"], &TIMES),
    whole(
        "forms",
        "Pairs of active blocks",
        &["active blocks", "pairs"],
        0,
        &[
            "left at the first pair, ns",
            "left at the last pair, ns",
            "the loops, ns",
            "accepted, ns",
        ],
    ),
    whole(
        "forms",
        "A settings record worked out",
        &["settings"],
        1,
        &["once, ns"],
    ),
    of_calls("moves", "The move", &MOVE, &TIMES),
    of_calls(
        "moves",
        "A reading and a change on the sheet after it",
        &AFTER,
        &TIMES,
    ),
    Layout {
        left: 1,
        ..of_calls("runs", "A change", &["settings", "changes"], &TIMES)
    },
    whole(
        "runs",
        "The slowest change",
        &["settings"],
        1,
        &["library, ns", TO_GREATEST, TO_SUM, "which it is"],
    ),
    whole(
        "programs",
        "The program",
        &["records", "how many"],
        1,
        &[
            "compiled, records/s",
            "second program, records/s",
            "compiled / second, time",
        ],
    ),
    of_calls("counts", "Reading", &CALL, &COUNTS),
    of_calls("counts", "Change of one bit", &CALL, &COUNTS),
    of_calls("counts", "Erase", &["settings"], &COUNTS),
    whole(
        "fetches",
        "One block's state",
        &["state", "cells"],
        1,
        &["fetches", "most of one cell"],
    ),
    of_fetches("Reading"),
    of_fetches("Change of one bit"),
];

impl Layout {
    /// The table of this part and title.
    pub fn of(part: &str, title: &str) -> Option<&'static Layout> {
        LAYOUTS
            .iter()
            .find(|layout| layout.part == part && layout.title == title)
    }

    /// The tables of a part.
    pub fn all(part: &str) -> impl Iterator<Item = &'static Layout> + '_ {
        LAYOUTS.iter().filter(move |layout| layout.part == part)
    }

    /// The place of the figure with this head.
    pub fn place(&self, head: &str) -> Option<usize> {
        self.figures.iter().position(|&figure| figure == head)
    }
}
