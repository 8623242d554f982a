//! Cuts every change of many runs, prints what the torn sheets read, and fails where that is not as it has to be.

use bench::cuts::{expected, marked, runs, tables};
use std::process::ExitCode;

fn main() -> ExitCode {
    let (all, marked) = (runs::measure(), marked::measure());
    print!("{}", tables::page(&all, &marked));
    let failures = expected::failures(&all, &marked);
    for failure in &failures {
        eprintln!("cuts: {failure}");
    }
    match failures.is_empty() {
        true => ExitCode::SUCCESS,
        false => ExitCode::FAILURE,
    }
}
