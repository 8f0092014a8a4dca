//! Each mutant differs from the true rules on its stored file, or is one that nothing tells apart.

use second::find::telling_call;
use second::jobs::Job;
use second::mutants::{Rules, MUTANTS, UNTOLD};
use second::random::problem;
use second::subject::{Call, Second};
use second::telling::answer_line;
use std::fs;
use std::path::PathBuf;

fn cases() -> PathBuf {
    PathBuf::from(env!("CARGO_MANIFEST_DIR")).join("../cases")
}

/// A line of the index: the mutant, the call, and the stored answer of the true rules.
fn lines() -> Vec<(Rules, Call, String)> {
    let index = fs::read_to_string(cases().join("mutants/INDEX.txt")).expect("the index is there");
    let lines = index.lines().filter(|line| !line.starts_with('#'));
    lines.map(line).collect()
}

fn line(line: &str) -> (Rules, Call, String) {
    let words: Vec<&str> = line.split(' ').collect();
    let mutant = Rules::named(words[0]).expect("a mutant has this name");
    let file = fs::read(cases().join(words[1])).expect("the file is stored");
    let job = Job::ALL.into_iter().find(|job| job.name() == words[2]).expect("a job has this name");
    let budget = words[3].parse().expect("a budget");
    let space = words[4].parse().expect("a space");
    (mutant, Call { job, file, budget, space }, words[5..].join(" "))
}

#[test]
fn every_mutant_that_can_be_told_is_told_by_its_stored_file() {
    let lines = lines();
    for &(mutant, _) in MUTANTS.iter().filter(|(mutant, _)| mutant.can_be_told()) {
        let (_, call, _) = lines.iter().find(|line| line.0 == mutant).expect("the mutant has a line");
        assert!(call.differs(&Second(Rules::TRUE), &Second(mutant)), "{}", mutant.name());
    }
    assert_eq!(lines.len() + UNTOLD.len(), MUTANTS.len());
}

#[test]
fn the_true_rules_give_the_stored_answers() {
    for (mutant, call, answer) in lines() {
        let outcome = call.outcome(&Second(Rules::TRUE));
        assert_eq!(answer_line(&outcome), answer, "{}", mutant.name());
    }
}

#[test]
fn nothing_tells_the_others() {
    for (mutant, reason) in UNTOLD {
        assert!(!reason.is_empty());
        assert_eq!(telling_call(mutant, problem, 10_000, 11), None, "{}", mutant.name());
        for (_, call, _) in lines() {
            assert!(!call.differs(&Second(Rules::TRUE), &Second(mutant)), "{}", mutant.name());
        }
    }
}

#[test]
fn the_shortcuts_of_document_01_are_among_the_mutants() {
    let told = |mutant: Rules, name: &str, job: Job| {
        let file = second::bench::case(name).file();
        let call = Call { job, file, budget: u32::MAX, space: 9 };
        assert!(call.differs(&Second(Rules::TRUE), &Second(mutant)), "{}", mutant.name());
    };
    told(Rules::MinimalityBySingles, "J", Job::List);
    told(Rules::OneBySingles, "J", Job::One);
    told(Rules::AgainstItselfAlone, "A", Job::Largest);
}

#[test]
fn the_readme_names_every_mutant() {
    let readme = include_str!("../README.md");
    for (mutant, _) in MUTANTS {
        assert!(readme.contains(&format!("`{}`", mutant.name())), "{}", mutant.name());
    }
}
