//! The rows of calls: each call on a sheet with few blocks in use and on one with many.

use crate::files::Line;
use crate::job::{Call, Job};
use crate::places::{both_kinds, stages, SHAPES};
use crate::sheets::{sheet, Use};
use crate::table::{cells, name};
use crate::timing::{time, Figures};

/// How many rounds a call is measured for.
const ROUNDS: usize = 201;

/// A row: its words and its job.
pub struct Row {
    words: Vec<String>,
    /// The job.
    pub job: Job,
}

/// The calls with the titles of their tables.
pub const CALLS: [(Call, &str); 3] = [
    (Call::Read, "Reading"),
    (Call::Change, "Change of one bit"),
    (Call::Erase, "Erase"),
];

/// All rows of a call.
pub fn rows(call: Call) -> Vec<Row> {
    let mut rows = Vec::new();
    for settings in both_kinds(&SHAPES) {
        // An erase looks at no cell, so that neither stage nor use makes a difference.
        let all = call != Call::Erase;
        let stages = if all { stages(&settings) } else { vec![0] };
        let uses: &[Use] = if all {
            &[Use::Few, Use::Many]
        } else {
            &[Use::Many]
        };
        for stage in stages {
            for &blocks in uses {
                let mut words = vec![name(&settings)];
                if all {
                    words.extend([stage.to_string(), blocks.name().into()]);
                }
                let job = Job::new(&settings, sheet(&settings, stage, blocks), call);
                rows.push(Row { words, job });
            }
        }
    }
    rows
}

/// The lines of all calls, with each row's figures.
pub fn lines(mut figures: impl FnMut(&Row) -> Figures) -> Vec<Line> {
    let mut lines = Vec::new();
    for (call, title) in CALLS {
        for row in rows(call) {
            let figures = cells(&figures(&row));
            lines.push(Line::new(title, row.words, figures));
        }
    }
    lines
}

/// The lines of all calls, measured now.
pub fn measure() -> Vec<Line> {
    lines(|row| time(&row.job, ROUNDS))
}
