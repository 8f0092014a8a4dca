//! The comparison over circuits of both editions: with the library where TRIM_DRIVER names its driver, with this
//! program itself, and with every mutant of the rules of circuits, which it must find and show on small texts.

use second::circuit_call::CircuitSubject;
use second::circuit_compare::{compare_circuits, CircuitFound};
use second::circuit_mutants::CIRCUIT_MUTANTS;
use second::circuit_mutants_newer::NEWER_MUTANTS;
use second::circuit_source::Edition;
use second::mutants::Rules;
use second::subject::Second;
use std::io::{self, Write};

/// The calls with texts of each edition.
const CALLS: usize = 50_000;
const SEED: u64 = 20_260_202;
/// The least calls with texts of each kind, of each job that got past the texts, and of each sort of edition 1.9.
const LEAST: usize = 500;

/// Compares and prints the seed and what was found, past the capture of test output.
fn compared(other: &dyn CircuitSubject, edition: Edition) -> CircuitFound {
    let found = compare_circuits(&Second(Rules::TRUE), other, edition, CALLS, SEED);
    let text = format!("comparison over circuits with {}, seed {SEED}: {found}\n", other.name());
    io::stderr().write_all(text.as_bytes()).expect("the gate reads this");
    found
}

/// No difference in so many calls, and enough of each sort.
fn no_difference(found: &CircuitFound) {
    assert!(found.counted() >= CALLS && found.difference.is_none(), "{found}");
    assert!(found.kinds.iter().all(|&times| times >= LEAST), "texts of every kind are met often: {found}");
    assert!(found.read.iter().all(|&times| times >= LEAST), "texts that are read are met often: {found}");
    let refused = [9, 10, 11, 12, 13, 14].map(|number: usize| found.numbers[number]);
    assert!(refused.iter().all(|&times| times >= LEAST), "each refusal is met often: {found}");
    assert!(found.numbers[1..9].iter().all(|&times| times == 0), "no file refusal is left: {found}");
}

/// As before, with all that is of edition 1.9 alone.
fn no_difference_in_newer_texts(found: &CircuitFound) {
    no_difference(found);
    assert!(found.numbers[15] >= LEAST, "15 is met often: {found}");
    assert!(found.sorts.iter().all(|&times| times >= LEAST), "all of edition 1.9 is met often: {found}");
}

#[test]
fn no_call_over_circuits_tells_this_program_from_itself() {
    no_difference(&compared(&Second(Rules::TRUE), Edition::Older));
    no_difference_in_newer_texts(&compared(&Second(Rules::TRUE), Edition::Newer));
}

#[test]
fn no_call_over_circuits_tells_the_library_from_this_program() {
    // Where no driver is named there is no library to compare with; the gate always names one.
    let Some(library) = second::library::Library::started() else {
        assert!(std::env::var_os("GATE").is_none(), "the gate names a driver");
        return;
    };
    no_difference(&compared(&library, Edition::Older));
    no_difference_in_newer_texts(&compared(&library, Edition::Newer));
}

/// These mutants show only on long texts, or on one first.
const LONG: [Rules; 21] = [
    Rules::LimitsBeforeCircuit,
    Rules::LimitsBeforeLemmas,
    Rules::LongCircuitNotJudged,
    Rules::LongLemmasNotJudged,
    Rules::LongDefinedTwiceJudged,
    Rules::LongPositionTwiceJudged,
    Rules::LongUndefinedJudged,
    Rules::LongCircleJudged,
    Rules::LimitsThemselvesRefused,
    Rules::MoreLatchesLetThrough,
    Rules::GatesNotCounted,
    Rules::MoreLemmasLetThrough,
    Rules::ClosingZeroCounted,
    Rules::SpaceBeforeLimits,
    Rules::LongBeforeJustice,
    Rules::MoreClausesLetThrough,
    Rules::ConstantClausesCounted,
    Rules::LemmasNotCounted,
    Rules::ConstraintsCountedOnce,
    Rules::FreeStartsCounted,
    Rules::FalseConstraintDropped,
];

/// The comparison over texts of this edition finds the mutant, and shows it on small texts if that can be.
fn is_found(mutant: Rules, edition: Edition) {
    let found = compare_circuits(&Second(Rules::TRUE), &Second(mutant), edition, CALLS, SEED);
    let difference = found.difference.unwrap_or_else(|| panic!("{} is not found", mutant.name()));
    assert!(difference.contains("the second program: number"), "{difference}");
    assert!(difference.contains(&format!("the mutant {}: number", mutant.name())), "{difference}");
    let size = difference.lines().find_map(|line| line.split_once(" bytes: ")).expect("a size").0;
    let small = size.parse::<usize>().expect("a number") < 300;
    assert!(small || LONG.contains(&mutant), "{difference}");
}

#[test]
fn every_mutant_of_circuits_is_found_and_shown_on_small_texts() {
    CIRCUIT_MUTANTS.iter().for_each(|&(mutant, _)| is_found(mutant, Edition::Older));
}

#[test]
fn every_mutant_of_edition_1_9_is_found_and_shown_on_small_texts() {
    NEWER_MUTANTS.iter().for_each(|&(mutant, _)| is_found(mutant, Edition::Newer));
}
