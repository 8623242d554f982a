//! The program on records: how many a second, the compiled one and the second one.

use crate::bits::Bits;
use crate::files::Line;
use crate::places::settings;
use crate::table::{ratio, rounded};
use crate::timing::median;
use second::Settings;
use std::fs::{self, File};
use std::path::{Path, PathBuf};
use std::process::{Command, Stdio};
use std::time::Instant;

/// How many rounds, each of both programs.
const ROUNDS: usize = 7;

/// The small sheets, which follow one another.
const SMALL: [(usize, [usize; 3]); 5] = [
    (0, [2, 1, 4]),
    (0, [4, 2, 19]),
    (1, [4, 2, 28]),
    (0, [8, 7, 100]),
    (1, [8, 3, 121]),
];

/// A file of records.
struct Input {
    name: &'static str,
    path: PathBuf,
    records: usize,
}

/// The lines of both programs, measured now; their inputs stand in the folder.
pub fn measure(folder: &Path, compiled: &Path, second: &Path) -> Vec<Line> {
    fs::create_dir_all(folder).expect("a folder for the inputs");
    let line = |input: Input| {
        assert!(
            input.output(compiled) == input.output(second),
            "the outputs differ: {}",
            input.name
        );
        let round = |_| [compiled, second].map(|program| input.seconds(program));
        let rounds: Vec<[f64; 2]> = (0..ROUNDS).map(round).collect();
        let of = |figure: fn(&[f64; 2]) -> f64| median(rounds.iter().map(figure).collect());
        let speed = |time: f64| rounded(input.records as f64 / time);
        let figures = vec![
            speed(of(|times| times[0])),
            speed(of(|times| times[1])),
            ratio(of(|times| times[0] / times[1])),
        ];
        let words = vec![input.name.into(), input.records.to_string()];
        Line::new("The program", words, figures)
    };
    inputs(folder).into_iter().map(line).collect()
}

/// The inputs, written to the folder.
fn inputs(folder: &Path) -> [Input; 2] {
    let small: Vec<Settings> = SMALL
        .iter()
        .map(|&(kind, shape)| settings(kind, shape).expect("accepted"))
        .collect();
    let large = [settings(0, [64, 15, 16_384]).expect("accepted")];
    let input = |name, file, all: &[Settings], records| {
        let path = folder.join(file);
        fs::write(&path, lives(all, records)).expect("the input is written");
        Input {
            name,
            path,
            records,
        }
    };
    [
        input(
            "small sheets, 4 to 121 cells",
            "small.records",
            &small,
            1_000_000,
        ),
        input(
            "plain k = 64, L = 15, n = 16,384",
            "large.records",
            &large,
            20_000,
        ),
    ]
}

/// So many records: sheet after sheet is erased, changed as often as is guaranteed, and read.
fn lives(all: &[Settings], records: usize) -> Vec<u8> {
    let mut bytes = Vec::with_capacity(8 * records);
    for (settings, seed) in all.iter().cycle().zip(1..) {
        let changes = Bits::Random(seed)
            .of(settings.k)
            .take(settings.guarantee() as usize);
        let changes = changes.map(|bit| (2, bit as u8));
        for (operation, bit) in [(1, 0)].into_iter().chain(changes).chain([(3, 0)]) {
            if bytes.len() == 8 * records {
                return bytes;
            }
            let [low, high] = (settings.n as u16).to_le_bytes();
            let [kind, k, top] =
                [settings.kind, settings.k, settings.top].map(|number| number as u8);
            bytes.extend([operation, kind, k, top, low, high, bit, 0]);
        }
    }
    unreachable!("sheets follow one another without end")
}

impl Input {
    /// The program, about to read the file.
    fn command(&self, program: &Path) -> Command {
        let mut command = Command::new(program);
        command.stdin(File::open(&self.path).expect("the input is there"));
        command
    }

    /// What the program prints: a line for each record, each Done.
    fn output(&self, program: &Path) -> Vec<u8> {
        let output = self.command(program).output().expect("the program runs");
        let lines = output
            .stdout
            .strip_suffix(b"\n")
            .expect("lines")
            .split(|&byte| byte == b'\n');
        let done = lines.filter(|line| line.starts_with(b"0 ")).count();
        assert!(
            output.status.success() && done == self.records,
            "{} done",
            done
        );
        output.stdout
    }

    /// How long the program takes, its start and end included.
    fn seconds(&self, program: &Path) -> f64 {
        let mut command = self.command(program);
        command.stdout(Stdio::null());
        let start = Instant::now();
        let status = command.status().expect("the program runs");
        let time = start.elapsed();
        assert!(status.success());
        time.as_secs_f64()
    }
}
