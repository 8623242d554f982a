//! What one run of the comparison does, and what its groups come to.

use super::comparison::{Comparison, Difference, Tally};
use super::impostor::Impostor;
use super::library::{Library, Model};
use super::programs::{compare_programs, show, Program};
use super::size::Size;
use super::{calls, forged, moves, numbers, packed, past, refusals, runs, settings, tiny};
use crate::Flaw;

/// What one run does.
#[derive(Clone, Copy, Debug)]
pub struct Plan {
    /// Where random inputs start.
    pub seed: u64,
    /// Random calls.
    pub calls: u64,
    /// Small files of records.
    pub files: usize,
    /// How much is run.
    pub size: Size,
    /// Lend slices without guards, each in memory of its own.
    pub exact: bool,
    /// Print each case before it is run.
    pub trace: bool,
}

/// What one group came to.
pub struct Group {
    /// The group's name and its counts.
    pub text: String,
    /// Whether it is as it must be.
    pub passed: bool,
    /// The smallest difference, where there must be none.
    pub difference: Option<String>,
}

/// A group of cases: its name and its work.
type Cases = (&'static str, fn(&mut Comparison, &Plan));

const GROUPS: [Cases; 10] = [
    ("numbers", |comparison, _| numbers::numbers(comparison)),
    ("settings", |comparison, plan| {
        settings::settings(comparison, plan.size)
    }),
    ("forged", |comparison, plan| {
        forged::forged(comparison, plan.seed, plan.rounds(4, 60));
    }),
    ("refusals", |comparison, plan| {
        refusals::refusals(comparison, plan.seed, plan.rounds(6, 60));
    }),
    ("tiny", |comparison, plan| tiny::tiny(comparison, plan.size)),
    ("packed", |comparison, plan| {
        packed::packed(comparison, plan.size)
    }),
    ("past", |comparison, plan| past::past(comparison, plan.size)),
    ("moves", |comparison, plan| {
        moves::moves(comparison, plan.seed, plan.rounds(1_000, 20_000));
    }),
    ("calls", |comparison, plan| {
        calls::calls(comparison, plan.seed, plan.calls);
    }),
    ("runs", |comparison, plan| {
        runs::runs(comparison, plan.seed, plan.size);
    }),
];

impl Plan {
    /// The same inputs, fewer of them.
    pub fn light(self) -> Plan {
        Plan {
            calls: self.calls.min(10_000),
            files: self.files.min(300),
            size: Size::Light,
            ..self
        }
    }

    /// Compares all groups with the library, and hands each on when it is done.
    pub fn library(&self, library: &dyn Library, done: &mut dyn FnMut(Group)) {
        let mut comparison = Comparison::new(library, self.exact, self.trace);
        for (name, work) in GROUPS {
            work(&mut comparison, self);
            done(group(name, comparison.take_tally()));
        }
    }

    /// Compares the drive program on all files.
    pub fn program(&self, program: &dyn Program, done: &mut dyn FnMut(Group)) {
        let tally = compare_programs(program, self.seed, self.files, self.size);
        let (files, records, differences) = (tally.files, tally.records, tally.differences);
        done(Group {
            text: format!(
                "records: {records} records in {files} files compared, {differences} differ"
            ),
            passed: differences == 0 && files > 0,
            difference: tally.smallest.map(|file| show(program, &file)),
        });
    }

    /// The comparison can fail: it finds nothing against the model itself, and tells every flaw
    /// and every impostor apart.
    pub fn self_check(&self, done: &mut dyn FnMut(Group)) {
        let plan = self.light();
        let nothing = plan.differences(&Model(Flaw::None));
        done(told("the model itself", nothing, nothing == 0));
        for flaw in Flaw::ALL {
            let found = plan.differences(&Model(flaw));
            done(told(&format!("{flaw:?}"), found, found > 0));
        }
        for impostor in Impostor::ALL {
            let found = plan.differences(&impostor);
            done(told(&format!("{impostor:?}"), found, found > 0));
        }
        for flaw in Flaw::ALL.into_iter().filter(|&flaw| shows(flaw)) {
            let found =
                compare_programs(&Model(flaw), plan.seed, plan.files, plan.size).differences;
            let name = format!("{flaw:?} in the drive program");
            done(told(&name, found, found > 0));
        }
    }

    /// How many cases differ, up to the end of the first group where any does.
    fn differences(&self, library: &dyn Library) -> u64 {
        let mut comparison = Comparison::new(library, self.exact, self.trace);
        for (_, work) in GROUPS {
            work(&mut comparison, self);
            if comparison.differences() > 0 {
                break;
            }
        }
        comparison.differences()
    }

    fn rounds(&self, light: usize, default: usize) -> usize {
        match self.size {
            Size::Light => light,
            _ => default,
        }
    }
}

/// What a group of cases came to, with the answers that have any.
fn group(name: &str, tally: Tally) -> Group {
    let (cases, differences) = (tally.cases, tally.differences);
    let mut text = format!("{name}: {cases} calls compared, {differences} differ; answers");
    for (answer, count) in tally.answers.iter().enumerate() {
        if *count > 0 {
            text += &format!(" {answer}: {count}");
        }
    }
    let show = |found: Difference| format!("{}\n    {}", found.text, found.case);
    Group {
        text,
        passed: differences == 0 && cases > 0,
        difference: tally.smallest.map(show),
    }
}

/// What the self-check found of one library or program.
fn told(name: &str, differences: u64, passed: bool) -> Group {
    Group {
        text: format!("self-check, {name}: {differences} differ"),
        passed,
        difference: None,
    }
}

/// Whether the drive program's lines can show the flaw: changes alone make its sheet, which is never
/// refused, and a line shows no index.
fn shows(flaw: Flaw) -> bool {
    ![
        Flaw::LastBadLevel,
        Flaw::SpareIgnored,
        Flaw::BitAfterLevel,
        Flaw::DigitsLowFirst,
        Flaw::OrderIgnored,
        Flaw::StagedOrderIgnored,
        Flaw::HoleAccepted,
        Flaw::HoleBeforeFull,
        Flaw::FullLastAccepted,
        Flaw::LastByNumber,
    ]
    .contains(&flaw)
}
