//! Prints the tests of a service panel, `trim-example FILE`: a line for each lemma of one minimal safe inductive subset.

use std::error::Error;
use std::io::Write;
use std::process::ExitCode;

const BUDGET: u32 = 10_000_000;

fn main() -> ExitCode {
    let Err(error) = run() else { return ExitCode::SUCCESS };
    eprintln!("trim-example: {error}");
    ExitCode::FAILURE
}

fn run() -> Result<(), Box<dyn Error>> {
    let mut words = std::env::args_os().skip(1);
    let (Some(path), None) = (words.next(), words.next()) else { return Err("usage: trim-example FILE".into()) };
    let file = std::fs::read(&path).map_err(|error| format!("{}: {error}", path.to_string_lossy()))?;
    let set = trim_example::one(&file, BUDGET)?;
    let mut out = std::io::stdout().lock();
    for position in set.positions() {
        writeln!(out, "watch lemma {position}")?;
    }
    Ok(())
}
