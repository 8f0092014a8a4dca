//! Each mutant of the rules of circuits differs from the true rules on its stored pair of texts.

use second::circuit_call::CircuitCall;
use second::circuit_jobs::CircuitJob;
use second::circuit_mutants::CIRCUIT_MUTANTS;
use second::circuit_mutants_newer::NEWER_MUTANTS;
use second::mutants::Rules;
use second::subject::Second;
use second::telling::answer_line;
use std::fs;
use std::path::PathBuf;

fn cases() -> PathBuf {
    PathBuf::from(env!("CARGO_MANIFEST_DIR")).join("../cases")
}

/// Every mutant of the rules of circuits, of both editions.
fn mutants() -> Vec<(Rules, &'static str)> {
    [CIRCUIT_MUTANTS, NEWER_MUTANTS].concat()
}

/// A line of the index: the mutant, the call, and the stored answer of the true rules.
fn lines() -> Vec<(Rules, CircuitCall, String)> {
    let index = fs::read_to_string(cases().join("circuits/mutants/INDEX.txt")).expect("the index is there");
    let lines = index.lines().filter(|line| !line.starts_with('#'));
    lines.map(line).collect()
}

fn line(line: &str) -> (Rules, CircuitCall, String) {
    let words: Vec<&str> = line.split(' ').collect();
    let mutant = Rules::named(words[0]).expect("a mutant has this name");
    let circuit = fs::read(cases().join(format!("{}.aag", words[1]))).expect("the circuit is stored");
    let lemmas = fs::read(cases().join(format!("{}.lemmas", words[1]))).unwrap_or_default();
    let job = CircuitJob::ALL.into_iter().find(|job| job.name() == words[2]).expect("a job has this name");
    let budget = words[3].parse().expect("a budget");
    let space = words[4].parse().expect("a space");
    (mutant, CircuitCall { job, circuit, lemmas, budget, space }, words[5..].join(" "))
}

#[test]
fn every_mutant_is_told_by_its_stored_pair() {
    let lines = lines();
    for (mutant, _) in mutants() {
        let (_, call, _) = lines.iter().find(|line| line.0 == mutant).expect("the mutant has a line");
        assert!(call.differs(&Second(Rules::TRUE), &Second(mutant)), "{}", mutant.name());
    }
    assert_eq!(lines.len(), mutants().len());
}

#[test]
fn the_true_rules_give_the_stored_answers() {
    for (mutant, call, answer) in lines() {
        let outcome = call.outcome(&Second(Rules::TRUE));
        assert_eq!(answer_line(&outcome), answer, "{}", mutant.name());
    }
}

#[test]
fn the_readme_names_every_mutant() {
    let readme = include_str!("../README.md");
    for (mutant, line) in mutants() {
        assert!(readme.contains(&format!("`{}`: {line}", mutant.name())), "{}", mutant.name());
    }
}
