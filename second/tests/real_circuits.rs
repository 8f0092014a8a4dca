//! The three real circuits, with the counts that two outside programs have given for them.

use second::circuit_jobs::{call, CircuitJob};
use second::circuit_problem::read;
use second::jobs::Report;
use second::mutants::Rules;
use std::fs;
use std::path::PathBuf;

fn texts(name: &str) -> [Vec<u8>; 2] {
    let path = PathBuf::from(env!("CARGO_MANIFEST_DIR")).join("../cases/circuits");
    ["aag", "lemmas"].map(|kind| fs::read(path.join(format!("{name}.{kind}"))).expect("the text is stored"))
}

/// The circuit `assumed` without its two constraint lines, and C 0 in its header.
fn assumed_without_constraints() -> [Vec<u8>; 2] {
    let [circuit, lemmas] = texts("assumed");
    let text = String::from_utf8(circuit).expect("plain text");
    let without = text.replacen("aag 125 5 8 0 112 1 2 0 0\n", "aag 125 5 8 0 112 1 0 0 0\n", 1);
    let without = without.replacen("\n236\n247\n251\n28 12 7\n", "\n236\n28 12 7\n", 1);
    assert_eq!(without.len(), text.len() - 8);
    [without.into_bytes(), lemmas]
}

/// The job marks so, in one row if it is a listing, with this count.
fn marked([circuit, lemmas]: &[Vec<u8>; 2], job: CircuitJob, decisions: u64, digits: &str) {
    let mut lent = vec![0xA5; digits.len() + 1];
    let report = call(job, [circuit, lemmas], u32::MAX, &mut lent, Rules::TRUE);
    let rows = (job == CircuitJob::List) as u64;
    assert_eq!(report, Report { decisions, rows, ..Report::default() }, "{job:?}");
    let marks: Vec<u8> = digits.bytes().map(|digit| digit - b'0').collect();
    assert_eq!(lent, [&marks[..], &[0xA5]].concat(), "{job:?}");
}

#[test]
fn their_sizes() {
    for (name, n, m, k, clauses, bytes) in [
        ("loader", 13, 194, 11, [13, 572, 547], 9_860),
        ("ledger", 11, 120, 11, [11, 361, 340], 6_252),
        ("assumed", 8, 117, 13, [6, 351, 336], 6_106),
    ] {
        let [circuit, lemmas] = texts(name);
        let report = call(CircuitJob::Check, [&circuit, &lemmas], 0, &mut [], Rules::TRUE);
        assert_eq!(report, Report { n, m, k, ..Report::default() });
        let problem = read(&circuit, &lemmas, Rules::TRUE).expect("it is read");
        assert_eq!([&problem.init, &problem.tr, &problem.bad].map(Vec::len), clauses);
        assert_eq!(problem.to_bytes().len(), bytes);
    }
}

#[test]
fn loader_counts() {
    let loader = texts("loader");
    marked(&loader, CircuitJob::Largest, 294, "11111111111");
    marked(&loader, CircuitJob::One, 6_706, "11111111111");
    marked(&loader, CircuitJob::List, 13_478, "11111111111");
}

#[test]
fn ledger_counts() {
    let ledger = texts("ledger");
    marked(&ledger, CircuitJob::Largest, 1_856, "11111111111");
    marked(&ledger, CircuitJob::One, 20_887, "11111111111");
    marked(&ledger, CircuitJob::List, 49_076, "11111111111");
}

#[test]
fn assumed_counts() {
    let assumed = texts("assumed");
    marked(&assumed, CircuitJob::Largest, 150, "1111111111111");
    marked(&assumed, CircuitJob::One, 2_972, "1111110110111");
    marked(&assumed, CircuitJob::List, 13_886, "1111110110111");
}

/// Its first six Init clauses are those of the latches that have a start, and its last clauses the constraints.
#[test]
fn assumed_has_its_start_values_bad_literal_and_constraints() {
    let [circuit, lemmas] = texts("assumed");
    let problem = read(&circuit, &lemmas, Rules::TRUE).expect("it is read");
    assert_eq!(problem.init, [-1, -2, -3, -4, -5, 6].map(|literal| vec![literal]));
    // Inputs are 17 to 21, and the gates follow: their lines go from 28 up by twos.
    let gate = |literal: i16| 22 + (literal - 28) / 2;
    let constraints = [vec![-gate(246)], vec![-gate(250)]];
    assert_eq!(problem.tr[problem.tr.len() - 2..], constraints);
    assert_eq!(problem.bad[problem.bad.len() - 3..], [&[vec![gate(236)]][..], &constraints].concat());
}

#[test]
fn without_its_constraints_no_subset_of_the_lemmas_carries_the_argument() {
    let texts = assumed_without_constraints();
    marked(&texts, CircuitJob::Largest, 285, "1111011110111");
    let [circuit, lemmas] = &texts;
    let mut lent = [0xA5; 13];
    let report = call(CircuitJob::One, [circuit, lemmas], u32::MAX, &mut lent, Rules::TRUE);
    assert_eq!(report, Report { number: 11, decisions: 298, ..Report::default() });
    assert_eq!(lent, [0xA5; 13]);
}
