//! The past of every plain sheet with the tiniest settings: a sheet is accepted exactly if some run
//! of changes from the erased sheet ends in it.
//!
//! The table counts it on the model in three ways: by readings, by a search that makes every run of
//! changes, and by the run that the command prints. The group makes the same readings and runs on the
//! library, and each call is compared with the model's.

use super::case::{Call, Case};
use super::comparison::Comparison;
use super::refused::{self, reached};
use super::size::Size;
use super::tiny::PLAIN;
use crate::past::told::plain;
use crate::past::{bits, length, replay, run_to, Turns};
use crate::sheets::every;
use crate::table::{row, total};
use crate::{read, sum, Answer, Settings};
use std::collections::HashSet;

/// Every assignment of levels of the tiniest plain settings, in a light run of those with 2 bits: each
/// read, and the run that ends in it made, where there is one.
pub(super) fn past(comparison: &mut Comparison, size: Size) {
    for asked in PLAIN {
        let settings = Settings::asked(asked);
        if size == Size::Light && settings.k > 2 {
            continue;
        }
        for sheet in every(settings.n, settings.top as u8) {
            let case = Case::on(Call::Read, &settings, &sheet);
            comparison.compare(&case);
            if let Ok(run) = run_to(&settings, &sheet) {
                make(comparison, case, &run);
            }
        }
    }
}

/// Erases the case's sheet and makes the run's changes, each on the sheet that the one before left: the
/// last leaves the sheet again.
fn make(comparison: &mut Comparison, mut case: Case, run: &[Turns]) {
    let sheet = case.sheet.clone();
    case.call = Call::Erase;
    comparison.compare(&case);
    case.call = Call::Change;
    for bit in bits(run) {
        case.sheet.copy_from_slice(comparison.sheet());
        case.bit = bit;
        comparison.compare(&case);
    }
    let ends = comparison.sheet() == sheet;
    comparison.require(ends, &case, || format!("the run does not end in {sheet:?}"));
}

/// What a reading of this sheet answers.
pub fn answered(settings: &Settings, sheet: &[u8]) -> Answer {
    read(settings, sheet, &mut [0; 64])
}

/// The run that the command prints for this sheet, or the status it ends with.
pub fn printed(settings: &Settings, sheet: &[u8]) -> Result<Vec<Turns>, u8> {
    let said = plain(settings.k as u8, settings.top as u8, sheet);
    let lines = said.text.lines().skip(1).map(str::parse);
    match said.status {
        0 => lines.collect::<Result<_, _>>().map_err(|_| 0),
        status => Err(status),
    }
}

/// How many sheets of one record of plain settings are accepted, are reached and have a run.
#[derive(Clone, Copy, Debug, Default, PartialEq, Eq)]
pub struct Counts {
    /// Assignments of levels.
    pub assignments: u64,
    /// Accepted: a reading answers Done.
    pub accepted: u64,
    /// Reached by the search that makes every run of changes.
    pub reached: u64,
    /// With a printed run that ends in the sheet when it is made.
    pub with_run: u64,
    /// The changes of all these runs.
    pub changes: u64,
}

impl Counts {
    /// Goes through every assignment of levels, or names the first sheet that is neither all three
    /// nor BadSheet and none of them.
    pub fn of(settings: &Settings) -> Result<Counts, String> {
        Counts::with(settings, answered, &reached(settings), printed)
    }

    /// The same for what a reading answers, the sheets that are reached, and what is printed of one.
    pub fn with(
        settings: &Settings,
        answered: impl Fn(&Settings, &[u8]) -> Answer,
        reached: &HashSet<Vec<u8>>,
        printed: impl Fn(&Settings, &[u8]) -> Result<Vec<Turns>, u8>,
    ) -> Result<Counts, String> {
        let mut counts = Counts::default();
        for sheet in every(settings.n, settings.top as u8) {
            let answer = answered(settings, &sheet);
            let run = printed(settings, &sheet);
            let ends = |run: &Vec<Turns>| replay(settings, run).as_ref() == Ok(&sheet);
            let found = [
                matches!(answer, Answer::Done(_)),
                reached.contains(&sheet),
                run.as_ref().is_ok_and(ends),
            ];
            let refused = answer == Answer::BadSheet && run == Err(1);
            let changes = run.as_deref().map_or(0, length);
            if found != [!refused; 3] || (!refused && changes != sum(&sheet)) {
                return Err(format!(
                    "{settings:?}, {sheet:?}: accepted, reached and with a run {found:?}; {run:?}"
                ));
            }
            counts.count(found, changes);
        }
        Ok(counts)
    }

    fn count(&mut self, found: [bool; 3], changes: u64) {
        let [accepted, reached, with_run] = found.map(u64::from);
        self.assignments += 1;
        self.accepted += accepted;
        self.reached += reached;
        self.with_run += with_run;
        self.changes += changes;
    }

    fn numbers(&self) -> [u64; 5] {
        [
            self.assignments,
            self.accepted,
            self.reached,
            self.with_run,
            self.changes,
        ]
    }
}

/// The plain settings that are counted.
pub fn settings() -> Vec<Settings> {
    let mut settings = refused::settings();
    settings.retain(|settings| settings.kind == 0);
    settings
}

/// The counts of all plain settings as a table with their sums, or what does not agree.
pub fn table() -> Result<String, String> {
    let (mut table, mut rows) = (String::from(HEAD), Vec::new());
    for settings in settings() {
        let numbers = Counts::of(&settings)?.numbers();
        table += &row(&settings, &numbers);
        rows.push(numbers);
    }
    Ok(table + &total(&rows))
}

const HEAD: &str = "\
| settings | assignments of levels | accepted | reached by changes | with a printed run that ends in it | changes of all these runs |
| --- | ---: | ---: | ---: | ---: | ---: |
";

#[cfg(test)]
mod tests {
    use super::*;
    use crate::compare::Model;
    use crate::Flaw;

    /// The group reads every assignment of levels, and makes an erase and the changes of each run.
    #[test]
    fn every_call_is_made() {
        for (size, most_bits) in [(Size::Light, 2), (Size::Default, 64)] {
            let model = Model(Flaw::None);
            let mut comparison = Comparison::new(&model, false, false);
            past(&mut comparison, size);
            let all = PLAIN.map(Settings::asked).into_iter();
            let calls = all
                .filter(|settings| settings.k <= most_bits)
                .map(|settings| {
                    let counts = Counts::of(&settings).unwrap();
                    counts.assignments + counts.with_run + counts.changes
                });
            assert_eq!(comparison.take_tally().cases, calls.sum::<u64>());
        }
    }
}
