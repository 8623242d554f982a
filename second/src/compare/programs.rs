//! The drive program's whole output on files of records, byte by byte.

use super::library::Model;
use super::records::{fixed_files, long_run, some_file};
use super::size::Size;
use crate::drive::drive;
use crate::random::Random;
use crate::Flaw;
use std::io::{Read, Write};
use std::process::{ChildStdin, Command, Stdio};

/// A drive program: a file of records in, lines out.
pub trait Program {
    /// The whole output, or why there is none.
    fn lines(&self, file: &[u8]) -> Result<Vec<u8>, String>;
}

impl Program for Model {
    fn lines(&self, file: &[u8]) -> Result<Vec<u8>, String> {
        let mut output = Vec::new();
        let run = self.0.during(|| drive(file, &mut output));
        run.map_err(|error| error.to_string())?;
        Ok(output)
    }
}

/// The compiled drive program.
pub struct Compiled {
    /// The command that runs it and its words, with spaces between.
    pub line: String,
}

/// A command and its words, with spaces between.
pub(super) fn command(line: &str) -> Command {
    let mut words = line.split_whitespace();
    let mut command = Command::new(words.next().unwrap_or_default());
    command.args(words);
    command
}

impl Program for Compiled {
    fn lines(&self, file: &[u8]) -> Result<Vec<u8>, String> {
        self.run(file).map_err(|error| error.to_string())?
    }
}

impl Compiled {
    fn run(&self, file: &[u8]) -> std::io::Result<Result<Vec<u8>, String>> {
        let mut child = command(&self.line)
            .stdin(Stdio::piped())
            .stdout(Stdio::piped())
            .spawn()?;
        let (input, output) = (child.stdin.take(), child.stdout.take());
        let mut lines = Vec::new();
        std::thread::scope(|scope| {
            scope.spawn(|| input.map(|input| feed(input, file)));
            output.map(|mut output| output.read_to_end(&mut lines))
        })
        .transpose()?;
        let status = child.wait()?;
        Ok(match status.success() {
            true => Ok(lines),
            false => Err(status.to_string()),
        })
    }
}

/// Writes the file, a short one in pieces that are no whole records. A program that ended early
/// takes no more; its lines and its status say so.
fn feed(mut input: ChildStdin, file: &[u8]) {
    let piece = match file.len() {
        ..800 => 5 + file.len() % 14,
        length => length,
    };
    for piece in file.chunks(piece) {
        if input.write_all(piece).is_err() {
            return;
        }
    }
}

/// What the files came to.
#[derive(Default)]
pub struct FileTally {
    /// Files compared.
    pub files: u64,
    /// Records in them, cut ones too.
    pub records: u64,
    /// Files whose output differed.
    pub differences: u64,
    /// The shortest of them.
    pub smallest: Option<Vec<u8>>,
}

/// Compares the program with the second program: the fixed files, so many small ones, a tenth as
/// many that go through all stages several times, and long ones of this size.
pub fn compare_programs(program: &dyn Program, seed: u64, files: usize, size: Size) -> FileTally {
    let mut random = Random::new(seed);
    let mut tally = FileTally::default();
    for file in fixed_files() {
        tally.compare(program, file);
    }
    for _ in 0..files {
        let records = random.below(40);
        tally.compare(program, some_file(&mut random, records, 700, 4));
    }
    for _ in 0..files.div_ceil(10) {
        let asked = random.one_of(&STAGED);
        tally.compare(program, long_run(&mut random, asked, 300));
    }
    let (long, largest) = match size {
        Size::Light => (3_000, 40),
        Size::Default => (50_000, 3_000),
        Size::Long => (1_000_000, 50_000),
    };
    for asked in SMALL {
        tally.compare(program, long_run(&mut random, asked, long));
    }
    for asked in LARGE {
        tally.compare(program, long_run(&mut random, asked, largest));
    }
    tally.compare(program, some_file(&mut random, long, 700, 50));
    tally.compare(program, some_file(&mut random, largest, 16_384, 50));
    if let Some(file) = tally.smallest.take() {
        tally.smallest = Some(shrink(program, file));
    }
    tally
}

/// Settings that take few changes to Erase: the kind, k, L and n.
const STAGED: [[u64; 4]; 5] = [
    [1, 4, 1, 36],
    [1, 4, 2, 30],
    [1, 8, 1, 180],
    [1, 8, 2, 150],
    [1, 16, 1, 706],
];

/// Settings of long runs.
const SMALL: [[u64; 4]; 5] = [
    [0, 2, 1, 9],
    [0, 8, 3, 128],
    [1, 4, 2, 30],
    [1, 8, 1, 200],
    [1, 16, 3, 556],
];

const LARGE: [[u64; 4]; 2] = [[0, 64, 1, 16_384], [1, 64, 1, 16_384]];

impl FileTally {
    fn compare(&mut self, program: &dyn Program, file: Vec<u8>) {
        self.files += 1;
        self.records += file.len().div_ceil(8) as u64;
        if !differs(program, &file) {
            return;
        }
        self.differences += 1;
        let shorter = |kept: &Vec<u8>| file.len() < kept.len();
        if self.smallest.as_ref().is_none_or(shorter) {
            self.smallest = Some(file);
        }
    }
}

fn differs(program: &dyn Program, file: &[u8]) -> bool {
    program.lines(file) != Model(Flaw::None).lines(file)
}

/// Leaves records out, first many at a time, as long as the output still differs.
fn shrink(program: &dyn Program, mut file: Vec<u8>) -> Vec<u8> {
    let mut records = file.len().div_ceil(8).next_power_of_two();
    let mut attempts = 0;
    while records > 0 {
        let mut first = 0;
        while first < file.len() && attempts < 400 {
            let end = (first + 8 * records).min(file.len());
            let shorter = [&file[..first], &file[end..]].concat();
            attempts += 1;
            if differs(program, &shorter) {
                file = shorter;
            } else {
                first = end;
            }
        }
        records /= 2;
    }
    file
}

/// The file as text that `xxd -r -p` turns back, and the first line that differs.
pub fn show(program: &dyn Program, file: &[u8]) -> String {
    let records: Vec<String> = file
        .chunks(8)
        .map(|record| record.iter().map(|byte| format!("{byte:02x}")).collect())
        .collect();
    let expected = Model(Flaw::None).lines(file).unwrap_or_default();
    let expected = String::from_utf8_lossy(&expected).into_owned();
    let text = match program.lines(file) {
        Err(reason) => reason,
        Ok(found) => {
            let found = String::from_utf8_lossy(&found).into_owned();
            let mut pairs = found.lines().zip(expected.lines()).enumerate();
            match pairs.find(|(_, (found, expected))| found != expected) {
                Some((line, (found, expected))) => {
                    format!("line {line} is '{found}', expected '{expected}'")
                }
                None => format!(
                    "{} bytes of output, expected {}",
                    found.len(),
                    expected.len()
                ),
            }
        }
    };
    format!("{text}; records: {}", records.join(" "))
}
