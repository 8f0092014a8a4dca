//! The comparison over circuits from the command line: `compare_circuits [CALLS [SEED]]`, 50,000 calls with texts of each
//! edition if none are named. Compares with the library where TRIM_DRIVER names its driver, else with this program itself
//! and with one mutant for each edition, which it must find.

use second::circuit_call::CircuitSubject;
use second::circuit_compare::compare_circuits;
use second::circuit_source::Edition;
use second::library::Library;
use second::mutants::Rules;
use second::subject::Second;
use std::process::ExitCode;
use std::time::{SystemTime, UNIX_EPOCH};

fn main() -> ExitCode {
    let number = |at: usize| std::env::args().nth(at).and_then(|word| word.parse().ok());
    let calls = number(1).unwrap_or(50_000);
    let now = SystemTime::now().duration_since(UNIX_EPOCH).map_or(1, |since| since.as_nanos() as u64);
    let seed = number(2).unwrap_or(now);
    println!("seed {seed}");
    let Some(library) = Library::started() else {
        return alone(calls as usize, seed);
    };
    let differs = Edition::ALL.iter().any(|&edition| run(&library, edition, calls as usize, seed));
    if differs {
        return ExitCode::FAILURE;
    }
    ExitCode::SUCCESS
}

/// With no library: no difference from this program itself, and the mutant of each edition is found.
fn alone(calls: usize, seed: u64) -> ExitCode {
    let mutants = [(Edition::Older, Rules::GateBeforeItsInputs), (Edition::Newer, Rules::ConstraintMissingInBad)];
    for (edition, mutant) in mutants {
        if run(&Second(Rules::TRUE), edition, calls, seed) {
            return ExitCode::FAILURE;
        }
        if !run(&Second(mutant), edition, calls, seed) {
            println!("the mutant was not found");
            return ExitCode::FAILURE;
        }
    }
    ExitCode::SUCCESS
}

/// Compares, prints, and says whether there was a difference.
fn run(other: &dyn CircuitSubject, edition: Edition, calls: usize, seed: u64) -> bool {
    let found = compare_circuits(&Second(Rules::TRUE), other, edition, calls, seed);
    println!("the second program and {}: {found}", other.name());
    found.difference.is_some()
}
