//! Compares the second program with the compiled library and with the compiled drive program.
//!
//! ```text
//! compare [--seed N] [--calls N] [--files N] [--program COMMAND] [--served COMMAND | --itself]
//!         [--light] [--exact] [--trace]
//! compare --replay 'CASE'
//! compare --records N [--seed N]
//! compare --refused
//! ```
//!
//! - `--seed N`: other random inputs; `--calls N`: so many random calls; `--files N`: so many small
//!   files of records. From 1,000,000 calls on, the longest runs and files are compared too.
//! - `--program COMMAND`, or HARPGINGER_PROGRAM: runs the compiled drive program, which is compared
//!   too. A command is one word with spaces between its own words.
//! - `--served COMMAND`: runs `serve.c` linked with the archive, in the linked library's place: for
//!   a machine whose processor is not the archive's, with an emulator in the command.
//! - `--light`: a part of each group, and no self-check. `--exact`: slices without guards, each in
//!   memory of its own, for tools that watch memory. `--trace`: prints each case before it is run.
//! - `--itself`: the model takes the compiled library's place.
//! - `--replay 'CASE'`: runs one case, as a difference prints it.
//! - `--records N`: writes a file of N records, to feed the drive program by hand.
//! - `--refused`: prints a table of how many sheets at stage 0 are refused for the order of their
//!   blocks, for tiny settings. No library is asked.
//!
//! From the repository's folder, the default run, a longer one, both with the build for this
//! machine, and one under a tool that watches memory:
//!
//! ```text
//! checks/compare
//! checks/compare --calls 1000000 --files 3000
//! checks/compare --native
//! checks/compare --native --calls 1000000 --files 3000
//! checks/memory
//! ```
//!
//! The compiled library is linked where HARPGINGER_ARCHIVE names the folder of libharpginger.a while this
//! is built. The last line counts each group and each part of the self-check as one; the exit
//! status is 0 only if none failed.

#[cfg(harpginger_archive)]
mod foreign;

use second::compare::{
    refused, some_file, Case, Comparison, Compiled, Group, Library, Model, Plan, Served, Size,
};
use second::random::Random;
use second::Flaw;
use std::io::Write;
use std::process::ExitCode;
use std::time::Instant;

/// What the command line asks for.
struct Asked {
    plan: Plan,
    program: Option<String>,
    served: Option<String>,
    itself: bool,
    replay: Option<String>,
    records: Option<usize>,
    refused: bool,
}

/// From so many calls on, the longest runs are made too.
const LONG: u64 = 1_000_000;

fn main() -> ExitCode {
    let asked = match asked(std::env::args().skip(1)) {
        Ok(asked) => asked,
        Err(wrong) => {
            eprintln!("compare: {wrong}");
            return ExitCode::FAILURE;
        }
    };
    let done = match (&asked.replay, asked.records) {
        (Some(case), _) => replay(&asked, case),
        (_, Some(records)) => write_records(asked.plan.seed, records),
        _ if asked.refused => write_refused(),
        _ => compare(&asked),
    };
    match done {
        true => ExitCode::SUCCESS,
        false => ExitCode::FAILURE,
    }
}

impl Default for Asked {
    fn default() -> Asked {
        Asked {
            plan: Plan {
                seed: 1,
                calls: 300_000,
                files: 3_000,
                size: Size::Default,
                exact: false,
                trace: false,
            },
            program: std::env::var("HARPGINGER_PROGRAM").ok(),
            served: None,
            itself: false,
            replay: None,
            records: None,
            refused: false,
        }
    }
}

fn asked(mut words: impl Iterator<Item = String>) -> Result<Asked, String> {
    let mut asked = Asked::default();
    while let Some(word) = words.next() {
        let mut text = || words.next().ok_or(format!("{word} needs a word after it"));
        let mut number = || {
            text()?
                .parse()
                .map_err(|_| format!("{word} needs a number"))
        };
        match &word[..] {
            "--seed" => asked.plan.seed = number()?,
            "--calls" => asked.plan.calls = number()?,
            "--files" => asked.plan.files = number()? as usize,
            "--records" => asked.records = Some(number()? as usize),
            "--program" => asked.program = Some(text()?),
            "--served" => asked.served = Some(text()?),
            "--replay" => asked.replay = Some(text()?),
            "--light" => asked.plan.size = Size::Light,
            "--exact" => asked.plan.exact = true,
            "--trace" => asked.plan.trace = true,
            "--itself" => asked.itself = true,
            "--refused" => asked.refused = true,
            _ => return Err(format!("unknown: {word}")),
        }
    }
    if asked.plan.calls >= LONG && asked.plan.size != Size::Light {
        asked.plan.size = Size::Long;
    }
    Ok(asked)
}

#[cfg(harpginger_archive)]
fn linked() -> Result<Box<dyn Library>, String> {
    Ok(Box::new(foreign::Foreign))
}

#[cfg(not(harpginger_archive))]
fn linked() -> Result<Box<dyn Library>, String> {
    Err(String::from(
        "built without the compiled library: build with HARPGINGER_ARCHIVE, or serve it",
    ))
}

/// The library to compare with.
fn library(asked: &Asked) -> Result<Box<dyn Library>, String> {
    match &asked.served {
        _ if asked.itself => Ok(Box::new(Model(Flaw::None))),
        Some(line) => match Served::start(line) {
            Ok(served) => Ok(Box::new(served)),
            Err(error) => Err(format!("{line}: {error}")),
        },
        None => linked(),
    }
}

/// Counts of the groups so far.
struct Score {
    passed: u64,
    failed: u64,
    /// When the last group was done.
    since: Instant,
}

impl Score {
    fn count(&mut self, group: Group) {
        let seconds = self.since.elapsed().as_secs_f32();
        self.since = Instant::now();
        let verdict = if group.passed { "ok  " } else { "FAIL" };
        println!("{verdict} {} ({seconds:.1} s)", group.text);
        if let Some(difference) = group.difference {
            println!("  the smallest found: {difference}");
        }
        match group.passed {
            true => self.passed += 1,
            false => self.failed += 1,
        }
    }
}

fn compare(asked: &Asked) -> bool {
    let plan = &asked.plan;
    let mut score = Score {
        passed: 0,
        failed: 0,
        since: Instant::now(),
    };
    println!("seed {}, {} random calls", plan.seed, plan.calls);
    match library(asked) {
        Ok(library) => {
            let name = if asked.itself {
                "itself"
            } else {
                "the compiled library"
            };
            println!("the second program with {name}:");
            plan.library(&*library, &mut |group| score.count(group));
        }
        Err(missing) => {
            println!("FAIL {missing}");
            score.failed += 1;
        }
    }
    match &asked.program {
        Some(line) => {
            println!("the second program with the drive program:");
            let line = line.clone();
            plan.program(&Compiled { line }, &mut |group| score.count(group));
        }
        None => println!("no drive program is compared: none was named"),
    }
    if plan.size != Size::Light {
        println!("the comparison itself:");
        plan.self_check(&mut |group| score.count(group));
    }
    println!("{} passed, {} failed", score.passed, score.failed);
    score.failed == 0
}

fn replay(asked: &Asked, text: &str) -> bool {
    let (case, library) = match (text.parse::<Case>(), library(asked)) {
        (Ok(case), Ok(library)) => (case, library),
        (Err(wrong), _) | (_, Err(wrong)) => {
            println!("{wrong}");
            return false;
        }
    };
    let (differs, text) = Comparison::new(&*library, asked.plan.exact, true).replay(&case);
    println!("{text}");
    !differs
}

fn write_records(seed: u64, records: usize) -> bool {
    let file = some_file(&mut Random::new(seed), records, 700, 20);
    std::io::stdout().write_all(&file).is_ok()
}

fn write_refused() -> bool {
    match refused::table() {
        Ok(table) => std::io::stdout().write_all(table.as_bytes()).is_ok(),
        Err(wrong) => {
            eprintln!("compare: {wrong}");
            false
        }
    }
}
