//! How often cells are fetched, by the call that tells a block's state and by calls on whole sheets; valgrind's lackey tells each load.

use crate::files::Line;
use crate::job::{By, Call, Job};
use crate::places::{both_kinds, SHAPES};
use crate::rows::CALLS;
use crate::sheets::{sheet, Use};
use crate::table::{name, ratio};
use crate::trace::{count, Cells};
use crate::valgrind;
use harpginger::MOST_CELLS;
use second::Settings;
use std::env;
use std::fs::{remove_file, File};
use std::io::BufReader;
use std::path::Path;
use std::sync::Mutex;

/// The states of a block.
const STATES: [&str; 4] = ["active", "empty", "full", "broken"];

/// How many cells the blocks have.
const LENGTHS: [usize; 6] = [2, 8, 13, 16, 63, 64];

/// How many changes are counted; their bits are spread over all bits.
const CHANGES: usize = 4;

/// The word of the cells that the library is called on.
const LIBRARY: &str = "library";

/// The word of the cells that a bare pass is made over.
const PASS: &str = "pass";

/// Where the sheets of a traced run stand: nothing else ever does, so that every load from there is a fetch of a cell.
static SHEETS: Mutex<[u8; (CHANGES + 1) * MOST_CELLS]> =
    Mutex::new([0; (CHANGES + 1) * MOST_CELLS]);

/// A call on a sheet with so many blocks in use at this stage.
struct Row {
    title: &'static str,
    call: Call,
    settings: Settings,
    stage: usize,
    blocks: Use,
}

impl Row {
    /// The words that name it.
    fn words(&self) -> Vec<String> {
        let stage = self.stage.to_string();
        vec![name(&self.settings), stage, self.blocks.name().into()]
    }

    /// Its name where the benchmarks stop.
    fn told(&self) -> String {
        format!("{}: {}", self.title, self.words().join(", "))
    }

    /// The call on its sheet.
    fn job(&self) -> Job {
        let cells = sheet(&self.settings, self.stage, self.blocks);
        Job::new(&self.settings, cells, self.call)
    }
}

/// The lines of all tables, counted in runs under valgrind, which writes its trace to this file.
pub fn measure(file: &Path, state: &Path) -> Vec<Line> {
    let rows = rows();
    for row in &rows {
        let checked = row.job().check();
        checked.unwrap_or_else(|why| panic!("{}: {why}", row.told()));
    }
    let calls = rows.iter().enumerate();
    let calls = calls.map(|(place, row)| line(row, place, file));
    blocks(file, state).into_iter().chain(calls).collect()
}

/// The lines of a block's state, which the program at `state` has told of many blocks: the most of all blocks of a row.
fn blocks(file: &Path, state: &Path) -> Vec<Line> {
    let mut lines = Vec::new();
    for word in STATES {
        for length in LENGTHS {
            let cells = length.to_string();
            let row = format!("One block's state: {word}, {cells} cells");
            let run = Run { row, word, length };
            let (all, _) = run.traced(file, state, &[&cells, word]);
            let in_all = all.iter().map(Cells::in_all).max().expect("a block");
            let figures = vec![in_all.to_string(), most(&all).to_string()];
            lines.push(Line::new(
                "One block's state",
                vec![word.into(), cells],
                figures,
            ));
        }
    }
    lines
}

/// All rows: each stage of each sheet, with few blocks in use and with many.
fn rows() -> Vec<Row> {
    let mut rows = Vec::new();
    // An erase fetches no cell.
    for (call, title) in CALLS.into_iter().filter(|&(call, _)| call != Call::Erase) {
        for settings in both_kinds(&SHAPES) {
            let stages = if settings.kind == 1 { settings.s } else { 1 };
            for stage in 0..stages {
                rows.extend([Use::Few, Use::Many].map(|blocks| Row {
                    title,
                    call,
                    settings,
                    stage,
                    blocks,
                }));
            }
        }
    }
    rows
}

/// The line of a row.
fn line(row: &Row, place: usize, file: &Path) -> Line {
    let program = env::current_exe().expect("this program's path");
    let run = Run {
        row: row.told(),
        word: LIBRARY,
        length: row.settings.n,
    };
    let (calls, pass) = run.traced(file, &program, &["fetched", &place.to_string()]);
    let figures = [&calls[..], &[pass]].map(|all| [ratio(average(all)), most(all).to_string()]);
    // The page does not show what is the same in every row.
    assert_eq!(figures[1], ["1.00", "1"], "{}", run.row);
    Line::new(row.title, row.words(), figures.concat())
}

/// The fetches of a cell on average.
fn average(all: &[Cells]) -> f64 {
    let cells: usize = all.iter().map(|cells| cells.fetches.len()).sum();
    all.iter().map(Cells::in_all).sum::<u64>() as f64 / cells as f64
}

/// The most fetches of one cell.
fn most(all: &[Cells]) -> u64 {
    let fetches = all.iter().flat_map(|cells| &cells.fetches);
    fetches.copied().max().expect("a cell")
}

/// A run under valgrind: its row, and what the program has to say of the cells: a word, and how many stand together.
struct Run<'a> {
    row: String,
    word: &'a str,
    length: usize,
}

impl Run<'_> {
    /// The cells that the program tells of, each of which was fetched, and those of a bare pass, which it tells of last.
    fn traced(&self, file: &Path, program: &Path, words: &[&str]) -> (Vec<Cells>, Cells) {
        let mut all = self.said(file, program, words);
        count(&mut all, BufReader::new(File::open(file).expect("a trace")));
        remove_file(file).expect("a trace");
        let pass = all.pop().expect("a bare pass");
        // A pass that is not counted as one fetch of each cell tells that the count is wrong.
        self.hold(&pass, PASS, |fetches| fetches == 1);
        assert!(!all.is_empty(), "{}: no cells but the pass's", self.row);
        for cells in &all {
            // Every call has to look at every cell.
            self.hold(cells, self.word, |fetches| fetches > 0);
        }
        (all, pass)
    }

    /// The cells that the program tells of while valgrind writes a trace of it.
    fn said(&self, file: &Path, program: &Path, words: &[&str]) -> Vec<Cells> {
        let to = format!("--log-file={}", file.display());
        let options = ["--tool=lackey", "--basic-counts=no", "--trace-mem=yes", &to];
        let output = valgrind::run(&options, program, words).unwrap_or_else(|why| {
            let said = valgrind::said_in(file);
            panic!("{}: {why}{said}", self.row)
        });
        let text = String::from_utf8(output.stdout).expect("lines");
        let cells = |line| Cells::said(line).expect("a line on cells");
        text.lines().map(cells).collect()
    }

    /// Holds cells to what has to be said of them, and to their fetches.
    fn hold(&self, cells: &Cells, word: &str, right: impl Fn(u64) -> bool) {
        let said = (&*cells.word, cells.fetches.len());
        assert_eq!(said, (word, self.length), "{}", self.row);
        cells.hold(&self.row, right);
    }
}

/// What runs under valgrind: the calls of a row, each on a sheet of its own, and a bare pass over one more.
/// The sheets are written before and never read but by these.
pub fn under_valgrind(row: usize) {
    let row = rows().into_iter().nth(row).expect("a row");
    let job = row.job();
    let calls = if row.call == Call::Change { CHANGES } else { 1 };
    let mut sheets = SHEETS.lock().expect("the sheets");
    let sheets = sheets.chunks_exact_mut(row.settings.n).take(calls + 1);
    for (turn, sheet) in sheets.enumerate() {
        let (by, word) = match turn < calls {
            true => (By::Library, LIBRARY),
            false => (By::Greatest, PASS),
        };
        sheet.copy_from_slice(&job.sheet);
        println!("{:x} {} {word}", sheet.as_ptr() as usize, sheet.len());
        let bit = job.bit(turn, calls);
        assert!(job.does(by, sheet, bit), "bit {bit} is answered otherwise");
    }
}
