//! Runs each case on the model and on the library, counts, and keeps the smallest difference.

use super::case::{Call, Case};
use super::lent::Lents;
use super::library::{Library, Model, Reply};
use crate::Flaw;

/// One library under comparison.
pub struct Comparison<'a> {
    library: &'a dyn Library,
    expected: Lents,
    found: Lents,
    trace: bool,
    tally: Tally,
}

/// What a group of cases came to.
#[derive(Default)]
pub struct Tally {
    /// Cases compared.
    pub cases: u64,
    /// How many of them the model answers with each number.
    pub answers: [u64; 9],
    /// Cases that differed, or that broke a count of the rules.
    pub differences: u64,
    /// The smallest of them.
    pub smallest: Option<Difference>,
}

/// A case and what is wrong with it.
pub struct Difference {
    /// The case with all its inputs.
    pub case: Case,
    /// What was found and what was expected.
    pub text: String,
}

/// How many smaller cases are tried.
const ATTEMPTS: usize = 20_000;

impl<'a> Comparison<'a> {
    /// A comparison with this library. Exact slices have no guards; a trace prints each case
    /// before it is run.
    pub fn new(library: &'a dyn Library, exact: bool, trace: bool) -> Comparison<'a> {
        Comparison {
            library,
            expected: Lents::new(exact),
            found: Lents::new(exact),
            trace,
            tally: Tally::default(),
        }
    }

    /// Compares one case, and gives the library's reply if nothing differs.
    pub fn compare(&mut self, case: &Case) -> Option<Reply> {
        if self.trace {
            eprintln!("{case}");
        }
        self.tally.cases += 1;
        let (expected, found) = self.run(case);
        self.tally.answers[expected.answer] += 1;
        if found == expected && self.found.difference(&self.expected).is_none() {
            return Some(found);
        }
        if found == Reply::NOT_MADE {
            self.tally.differences += 1;
            return None;
        }
        let text = self.text(expected, found);
        self.tally.differ(case, text);
        None
    }

    /// The sheet that the model left in the last case.
    pub fn sheet(&self) -> &[u8] {
        self.expected.sheet.slice()
    }

    /// The output that the model left in the last case.
    pub fn output(&self) -> &[u8] {
        self.expected.output.slice()
    }

    /// The record that the model left in the last case.
    pub fn record(&self) -> &[usize] {
        self.expected.record.slice()
    }

    /// Counts a difference at this case unless what the rules say holds.
    pub fn require(&mut self, holds: bool, case: &Case, text: impl FnOnce() -> String) {
        if !holds {
            self.tally.differ(case, text());
        }
    }

    /// How many cases differed since the last time.
    pub fn differences(&self) -> u64 {
        self.tally.differences
    }

    /// What the cases since the last time came to, the smallest made smaller still.
    pub fn take_tally(&mut self) -> Tally {
        let mut tally = std::mem::take(&mut self.tally);
        if let Some(smallest) = &mut tally.smallest {
            self.shrink(smallest);
        }
        tally
    }

    /// Whether the case differs, and what both sides left, as text.
    pub fn replay(&mut self, case: &Case) -> (bool, String) {
        let (expected, found) = self.run(case);
        let alike = found == expected && self.found.difference(&self.expected).is_none();
        let differs = !alike && found != Reply::NOT_MADE;
        (differs, self.text(expected, found))
    }

    fn run(&mut self, case: &Case) -> (Reply, Reply) {
        let expected = case.run(&Model(Flaw::None), &mut self.expected);
        let found = case.run(self.library, &mut self.found);
        (expected, found)
    }

    fn text(&self, expected: Reply, found: Reply) -> String {
        match found {
            Reply::OUTSIDE => return String::from("the call wrote where nothing was lent for it"),
            Reply::ENDED => return String::from("the call ended the process that serves it"),
            _ => {}
        }
        let place = self.found.difference(&self.expected);
        format!(
            "answer {} value {}, expected answer {} value {}; {}",
            found.answer,
            found.value,
            expected.answer,
            expected.value,
            place.as_deref().unwrap_or("everything lent is alike")
        )
    }

    /// Sets cells to 0, the last ones first, then lowers them to 1, as long as the case still differs.
    fn shrink(&mut self, smallest: &mut Difference) {
        let mut case = smallest.case.clone();
        if case.call == Call::Settings || !self.replay(&case).0 {
            return;
        }
        let mut attempts = 0;
        for level in [0, 1] {
            let mut length = case.sheet.len().next_power_of_two();
            while length > 0 && attempts < ATTEMPTS {
                for first in (0..case.sheet.len()).step_by(length).rev() {
                    let last = (first + length).min(case.sheet.len());
                    attempts += 1;
                    self.lower(&mut case, first..last, level);
                }
                length /= 2;
            }
        }
        if let (true, text) = self.replay(&case) {
            *smallest = Difference { case, text };
        }
    }

    /// Lowers these cells to the level, and takes that back if the case no longer differs.
    fn lower(&mut self, case: &mut Case, cells: std::ops::Range<usize>, level: u8) {
        let before = case.sheet[cells.clone()].to_vec();
        if before.iter().all(|&old| old <= level) {
            return;
        }
        for cell in &mut case.sheet[cells.clone()] {
            *cell = level.min(*cell);
        }
        if !self.replay(case).0 {
            case.sheet[cells].copy_from_slice(&before);
        }
    }
}

impl Tally {
    fn differ(&mut self, case: &Case, text: String) {
        self.differences += 1;
        let size = case.size();
        let smaller = |kept: &Difference| size < kept.case.size();
        if self.smallest.as_ref().is_none_or(smaller) {
            let case = case.clone();
            self.smallest = Some(Difference { case, text });
        }
    }
}
