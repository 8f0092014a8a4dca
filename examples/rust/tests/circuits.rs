//! Circuits with their lemmas, through the wrapper: the three real ones, the pairs that are read, and every refused pair of
//! `cases/circuits/refusals` with the number and the place that its index gives.

mod common;

use common::path;
use trim_example::{check, circuit_check, circuit_largest, circuit_list, circuit_one, circuit_problem};
use trim_example::{Accepted, Ended, Refusal, Text};

fn bytes(name: &str) -> Vec<u8> {
    std::fs::read(path(name)).unwrap_or_else(|error| panic!("{name}: {error}"))
}

/// The circuit and the lemmas of a pair, whose lemma text may be empty and is then not stored.
fn pair(name: &str) -> (Vec<u8>, Vec<u8>) {
    let lemmas = format!("circuits/{name}.lemmas");
    let stored = path(&lemmas).exists();
    (bytes(&format!("circuits/{name}.aag")), if stored { bytes(&lemmas) } else { Vec::new() })
}

#[test]
fn the_loader_is_read() {
    let (circuit, lemmas) = pair("loader");
    assert_eq!(circuit_check(&circuit, &lemmas), Ok(Accepted { n: 13, m: 194, k: 11 }));
    let set = circuit_largest(&circuit, &lemmas, u32::MAX).unwrap();
    assert_eq!((set.marks, set.decisions), (vec![true; 11], 294));
}

#[test]
fn the_ledger_is_read() {
    let (circuit, lemmas) = pair("ledger");
    assert_eq!(circuit_check(&circuit, &lemmas), Ok(Accepted { n: 11, m: 120, k: 11 }));
    let spent = Refusal { number: 10, place: None, text: None, decisions: 9 };
    assert_eq!(circuit_one(&circuit, &lemmas, 9), Err(spent));
}

/// A circuit of edition 1.9, with start values, a bad literal and constraints.
#[test]
fn the_assumed_loader_is_read() {
    let (circuit, lemmas) = pair("assumed");
    assert_eq!(circuit_check(&circuit, &lemmas), Ok(Accepted { n: 8, m: 117, k: 13 }));
    let set = circuit_one(&circuit, &lemmas, u32::MAX).unwrap();
    assert_eq!((set.positions(), set.decisions), (vec![0, 1, 2, 3, 4, 5, 7, 8, 10, 11, 12], 2_972));
}

/// The last has as many bytes as any.
#[test]
fn the_problem_of_a_circuit_is_a_file() {
    for (name, len) in [("loader", 9_860), ("ledger", 6_252), ("assumed", 6_106), ("read/newer-most", 46_220)] {
        let (circuit, lemmas) = pair(name);
        let file = circuit_problem(&circuit, &lemmas).unwrap();
        assert_eq!(file.len(), len, "{name}");
        assert_eq!(check(&file), circuit_check(&circuit, &lemmas), "{name}");
    }
}

/// The worked example of docs/CIRCUITS.md: of its three lemmas the middle one is needed, and does alone.
#[test]
fn every_job_reads_the_worked_example() {
    let (circuit, lemmas) = (bytes("../examples/worked.aag"), bytes("../examples/worked.lemmas"));
    assert_eq!(circuit_check(&circuit, &lemmas), Ok(Accepted { n: 2, m: 3, k: 3 }));
    let largest = circuit_largest(&circuit, &lemmas, 99).unwrap();
    let one = circuit_one(&circuit, &lemmas, 99).unwrap();
    let listing = circuit_list(&circuit, &lemmas, 99, 99).unwrap();
    assert_eq!((largest.positions(), one.positions()), (vec![1], vec![1]));
    assert_eq!((listing.rows, listing.ended), (vec![vec![false, true, false]], Ended::Complete));
    assert_eq!(circuit_list(&circuit, &lemmas, 99, 2).unwrap().ended, Ended::Full);
}

#[test]
fn a_circuit_that_reaches_its_output_has_no_safe_set() {
    let (circuit, lemmas) = pair("read/plain");
    let none = Refusal { number: 11, place: None, text: None, decisions: 0 };
    assert_eq!(circuit_one(&circuit, &lemmas, 9), Err(none));
    assert_eq!(circuit_list(&circuit, &lemmas, 9, 9), Err(none));
}

/// A line of the index: a pair's name, its number and its place.
fn line(text: &str) -> (String, u32, usize) {
    let mut words = text.split(' ');
    let mut word = || words.next().unwrap_or_else(|| panic!("a short line: {text}"));
    (word().to_string(), word().parse().expect("a number"), word().parse().expect("a place"))
}

#[test]
fn every_pair_is_refused_as_the_index_says() {
    let text = String::from_utf8(bytes("circuits/refusals/INDEX.txt")).expect("the index is text");
    let mut seen = 0;
    for (name, number, place) in text.lines().filter(|text| !text.starts_with('#')).map(line) {
        let (circuit, lemmas) = pair(&format!("refusals/{name}"));
        let refusal = circuit_check(&circuit, &lemmas).expect_err(&name);
        let place = (number == 13).then_some(place);
        assert_eq!((refusal.number, refusal.place), (number, place), "{name}");
        assert_eq!(refusal.text.is_some(), number == 13, "{name}");
        assert_eq!(circuit_largest(&circuit, &lemmas, 0), Err(refusal), "{name}");
        assert_eq!(circuit_one(&circuit, &lemmas, u32::MAX), Err(refusal), "{name}");
        assert_eq!(circuit_list(&circuit, &lemmas, u32::MAX, 0), Err(refusal), "{name}");
        assert_eq!(circuit_problem(&circuit, &lemmas), Err(refusal), "{name}");
        seen += 1;
    }
    assert!(seen > 100, "{seen}");
}

#[test]
fn a_line_at_fault_is_told_with_its_text() {
    let (circuit, lemmas) = pair("read/plain");
    let refusal = |place, text| Err(Refusal { number: 13, place: Some(place), text: Some(text), decisions: 0 });
    assert_eq!(circuit_check(b"", b"0"), refusal(0, Text::Circuit));
    assert_eq!(circuit_check(&circuit, b"0\n2 0\n"), refusal(2, Text::Lemmas));
    let short = &circuit[..circuit.len() - 1];
    assert!(matches!(circuit_check(short, &lemmas), Err(Refusal { number: 13, text: Some(Text::Circuit), .. })));
}
