//! The comparison in the gate: with the library where TRIM_DRIVER names its driver, with this program itself, and with
//! every mutant, which it must find and show on a small file.

use second::compare::{compare, Found};
use second::mutants::{Rules, MUTANTS};
use second::subject::{Second, Subject};
use std::io::{self, Write};

const CALLS: usize = 100_000;
const SEED: u64 = 20_261_115;
/// The least calls of each job with an accepted file whose Bad names an input or helper.
const BAD_INPUTS: usize = 1_000;

/// Compares and prints the seed and what was found, past the capture of test output.
fn compared(other: &dyn Subject) -> Found {
    let found = compare(&Second(Rules::TRUE), other, CALLS, SEED);
    let text = format!("comparison with {}, seed {SEED}: {found}\n", other.name());
    io::stderr().write_all(text.as_bytes()).expect("the gate reads this");
    found
}

/// No difference in so many calls, and for each job enough of them where Bad names an input or helper.
fn no_difference(found: &Found) {
    assert!(found.calls >= CALLS && found.difference.is_none(), "{found}");
    assert!(found.bad_inputs.iter().all(|&times| times >= BAD_INPUTS), "inputs in Bad are met often: {found}");
}

#[test]
fn no_call_tells_this_program_from_itself() {
    let found = compared(&Second(Rules::TRUE));
    no_difference(&found);
    assert!(found.numbers.iter().all(|&times| times > 0), "every number is met: {found}");
}

#[test]
fn no_call_tells_the_library_from_this_program() {
    // Where no driver is named there is no library to compare with; the gate always names one.
    let Some(library) = second::library::Library::started() else {
        assert!(std::env::var_os("GATE").is_none(), "the gate names a driver");
        return;
    };
    no_difference(&compared(&library));
}

/// The limits of three faults need a long file: these mutants cannot be shown on a small one.
const LONG: [Rules; 3] = [Rules::FileSizeLast, Rules::CountBeforeBody, Rules::ContentBeforeCount];

#[test]
fn every_mutant_that_can_be_told_is_found_and_shown_on_a_small_file() {
    for &(mutant, _) in MUTANTS.iter().filter(|(mutant, _)| mutant.can_be_told()) {
        let found = compare(&Second(Rules::TRUE), &Second(mutant), CALLS, SEED);
        let difference = found.difference.unwrap_or_else(|| panic!("{} is not found", mutant.name()));
        assert!(difference.contains("the second program: number"), "{difference}");
        assert!(difference.contains(&format!("the mutant {}: number", mutant.name())), "{difference}");
        let size = difference.lines().find_map(|line| line.split_once(" bytes: ")).expect("a size").0;
        let small = size.parse::<usize>().expect("a number") < 100;
        assert!(small || LONG.contains(&mutant), "{difference}");
    }
}
