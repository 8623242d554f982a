//! Measures endurance, writes the file of it that is named, and prints the table.

use bench::endurance::measure;
use bench::measured::{file, parse, table};
use std::process::ExitCode;

fn main() -> ExitCode {
    let Some(path) = std::env::args().nth(1) else {
        eprintln!("endurance: the name of the file to write");
        return ExitCode::FAILURE;
    };
    let measured = measure();
    let text = file(&measured);
    assert_eq!(
        parse(&text).as_ref(),
        Ok(&measured),
        "the file says what was measured"
    );
    if let Err(error) = std::fs::write(&path, text) {
        eprintln!("endurance: {path}: {error}");
        return ExitCode::FAILURE;
    }
    println!("{}", table(&measured));
    ExitCode::SUCCESS
}
