//! Instructions of a call, counted by valgrind's callgrind, whatever else the machine does.

use crate::files::Line;
use crate::job::By;
use crate::rows::{lines, rows, Row, CALLS};
use crate::timing::Figures;
use crate::valgrind::run;
use std::env;
use std::path::Path;

/// How many calls are counted; their bits are spread over all bits.
const CALLS_COUNTED: usize = 4;

/// The lines of all calls, each row counted in runs of this program under valgrind, which also
/// writes a file of its own.
pub fn measure(file: &Path) -> Vec<Line> {
    let mut place = 0;
    lines(|row| {
        row.job.check().expect("library and second program agree");
        let all = |by, calls| instructions(file, [place, by, calls]);
        let without = all(0, 0);
        let counted = |by| (all(by, CALLS_COUNTED) - without) as f64 / CALLS_COUNTED as f64;
        let figures = Figures::new([0, 1, 2, 3].map(counted));
        place += 1;
        figures
    })
}

/// The instructions of a whole run of this program: row, who and how many calls.
fn instructions(file: &Path, words: [usize; 3]) -> u64 {
    let to = format!("--callgrind-out-file={}", file.display());
    let program = env::current_exe().expect("this program's path");
    let [row, by, calls] = &words.map(|word| word.to_string());
    let words: [&str; 4] = ["counted", row, by, calls];
    let output = run(&["--tool=callgrind", &to], &program, &words);
    let output = output.unwrap_or_else(|why| panic!("{why}"));
    let text = String::from_utf8_lossy(&output.stderr);
    let count = text
        .rsplit("Collected : ")
        .next()
        .map(|rest| rest.lines().next());
    count
        .flatten()
        .and_then(|count| count.trim().parse().ok())
        .expect("a count")
}

/// What runs under valgrind: a call by each, and so many more by one, that are all that differs.
pub fn under_valgrind(row: usize, by: usize, calls: usize) {
    let Row { job, .. } = CALLS
        .into_iter()
        .flat_map(|(call, _)| rows(call))
        .nth(row)
        .expect("a row");
    for by in By::ALL {
        assert!(job.does(by, &mut job.sheet.clone(), 0));
    }
    let mut sheets = vec![job.sheet.clone(); CALLS_COUNTED];
    for (turn, sheet) in sheets.iter_mut().take(calls).enumerate() {
        assert!(job.does(By::ALL[by], sheet, job.bit(turn, CALLS_COUNTED)));
    }
}
