//! Measures one part of the benchmarks and prints its file, or prints one part of the page from the files of a folder.

use bench::files::{processors, text, Line};
use bench::{count, fetches, forms, moves, page, programs, rows, runs, sizes, summary};
use std::path::Path;
use std::process::ExitCode;

fn main() -> ExitCode {
    let words: Vec<String> = std::env::args().skip(1).collect();
    let words: Vec<&str> = words.iter().map(|word| &**word).collect();
    match words[..] {
        ["counted", row, by, calls] => {
            let [row, by, calls] = [row, by, calls].map(|word| word.parse().expect("a number"));
            count::under_valgrind(row, by, calls);
        }
        ["fetched", row] => fetches::under_valgrind(row.parse().expect("a number")),
        ["page", part, folder] => print(part, Path::new(folder)),
        ["measure", machine, part, ref rest @ ..] => match measured(part, rest) {
            Some(lines) => print!("{}", text(part, machine, &lines)),
            None => return usage(),
        },
        _ => return usage(),
    }
    ExitCode::SUCCESS
}

/// The lines of a part, measured now.
fn measured(part: &str, rest: &[&str]) -> Option<Vec<Line>> {
    let lines = match (part, rest) {
        ("calls", []) => rows::measure(),
        ("forms", []) => forms::measure(),
        ("moves", []) => moves::measure(),
        ("runs", []) => runs::measure(),
        ("programs", &[folder, compiled, second]) => {
            programs::measure(Path::new(folder), Path::new(compiled), Path::new(second))
        }
        ("counts", &[file]) => count::measure(Path::new(file)),
        ("fetches", &[file, state]) => fetches::measure(Path::new(file), Path::new(state)),
        _ => return None,
    };
    Some(lines)
}

/// One part of the page.
fn print(part: &str, folder: &Path) {
    let processors = processors(folder);
    match part {
        "summary" => {
            let lines = summary::lines(&processors, &sizes::parse(folder).1);
            println!("{}\n", lines.join("\n"));
        }
        "machine" => print!("{}", page::machines(&processors)),
        "yardsticks" => print!("{}", page::yardsticks(&processors)),
        "sizes" => sizes::print(folder),
        _ => print!("{}", page::part(&processors, part)),
    }
}

fn usage() -> ExitCode {
    eprintln!("figures: measure MACHINE calls, forms, moves, runs, programs FOLDER COMPILED SECOND, counts FILE, or fetches FILE STATE; or page PART FOLDER");
    ExitCode::FAILURE
}
