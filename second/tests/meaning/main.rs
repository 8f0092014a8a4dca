//! Over random small files the four jobs give what the definitions say, found by walking everything; and over random
//! small circuits too, found by simulating them.

mod circuits;
mod simulate;
mod walk;

use second::bench::case;
use second::file::{read, Clause, Problem};
use second::jobs::{call, Job, Report};
use second::mutants::Rules;
use second::random::{problem, Random, SMALL};
use walk::Walk;

const FILES: usize = 20_000;
const SEED: u64 = 20_261_115;
const UNTOUCHED: u8 = 0xA5;

fn files() -> impl Iterator<Item = Problem> {
    let mut random = Random(SEED);
    (0..FILES).map(move |_| problem(&mut random, SMALL))
}

fn done(problem: &Problem, job: Job, budget: u32, space: usize) -> (Report, Vec<u8>) {
    let mut lent = vec![UNTOUCHED; space];
    let report = call(job, &problem.to_bytes(), budget, &mut lent, Rules::TRUE);
    (report, lent)
}

fn marks(set: &[bool]) -> Vec<u8> {
    set.iter().map(|&inside| inside as u8).collect()
}

#[test]
fn files_are_read_as_they_were_written() {
    for problem in files() {
        assert_eq!(read(&problem.to_bytes(), Rules::TRUE), Ok(problem.clone()));
        let (n, m, k) = (problem.n as u64, problem.m as u64, problem.k() as u64);
        let (report, _) = done(&problem, Job::Check, 0, 0);
        assert_eq!(report, Report { n, m, k, ..Report::default() });
    }
}

#[test]
fn the_largest_set_is_the_inductive_set_that_contains_all_others() {
    for problem in files() {
        let (report, lent) = done(&problem, Job::Largest, u32::MAX, problem.k());
        assert_eq!(report.number, 0, "{problem}");
        assert_eq!(lent, marks(&Walk::of(&problem).largest()), "{problem}");
    }
}

#[test]
fn the_one_set_is_the_last_minimal_set_or_there_is_none() {
    for problem in files() {
        let walk = Walk::of(&problem);
        let (report, lent) = done(&problem, Job::One, u32::MAX, problem.k());
        match walk.minimal_sets().last() {
            Some(set) => {
                assert_eq!((report.number, lent), (0, marks(set)), "{problem}");
                assert!(!walk.reaches_bad(), "{problem}");
            }
            None => assert_eq!((report.number, lent), (11, vec![UNTOUCHED; problem.k()]), "{problem}"),
        }
    }
}

#[test]
fn the_listing_is_every_minimal_set_once_and_in_order() {
    for problem in files() {
        let rows = Walk::of(&problem).minimal_sets();
        let bytes = rows.concat();
        let (report, lent) = done(&problem, Job::List, u32::MAX, bytes.len());
        assert_eq!(report.number, if rows.is_empty() { 11 } else { 0 }, "{problem}");
        assert_eq!(report.rows, rows.len() as u64, "{problem}");
        assert_eq!(lent, marks(&bytes), "{problem}");
    }
}

#[test]
fn a_stopped_listing_holds_the_first_rows_of_the_same_list() {
    for problem in files().take(2_000) {
        let k = problem.k();
        let rows = Walk::of(&problem).minimal_sets();
        let bytes = marks(&rows.concat());
        let (whole, _) = done(&problem, Job::List, u32::MAX, bytes.len());
        for budget in 0..whole.decisions.min(40) as u32 {
            let (report, lent) = done(&problem, Job::List, budget, bytes.len());
            assert_eq!((report.number, report.decisions), (10, budget as u64), "{problem}");
            let kept = report.rows as usize * k;
            assert_eq!(lent[..kept], bytes[..kept], "{problem}");
            assert!(lent[kept..].iter().all(|&byte| byte == UNTOUCHED), "{problem}");
        }
        for space in 0..bytes.len() {
            let (report, lent) = done(&problem, Job::List, u32::MAX, space);
            assert_eq!((report.number, report.rows as usize), (12, space / k), "{problem}");
            let kept = space / k * k;
            assert_eq!(lent[..kept], bytes[..kept], "{problem}");
            assert!(lent[kept..].iter().all(|&byte| byte == UNTOUCHED), "{problem}");
        }
    }
}

#[test]
fn the_checksum_case_walked_has_the_rows_that_are_listed() {
    let problem = case("checksum").problem();
    let walk = Walk::of(&problem);
    assert_eq!(marks(&walk.largest()), [1, 1, 1, 0, 1, 0]);
    let rows: Vec<Vec<u8>> = walk.minimal_sets().iter().map(|set| marks(set)).collect();
    assert_eq!(rows, [[0, 1, 1, 0, 0, 0], [0, 0, 0, 0, 1, 0]]);
    assert!(!walk.reaches_bad());
}

fn some_clause(problem: &Problem, test: impl Fn(&Clause) -> bool) -> bool {
    let lists = [&problem.init, &problem.tr, &problem.bad, &problem.lemmas];
    lists.into_iter().flatten().any(test)
}

fn repeats(clause: &Clause, sign: i16) -> bool {
    (1..clause.len()).any(|at| clause[..at].contains(&(sign * clause[at])))
}

fn has_equal(list: &[Clause]) -> bool {
    (1..list.len()).any(|at| !list[at].is_empty() && list[..at].contains(&list[at]))
}

fn is_input(problem: &Problem, literal: i16) -> bool {
    literal.unsigned_abs() as usize > 2 * problem.n
}

fn names_input(problem: &Problem, clause: &Clause) -> bool {
    clause.iter().any(|&literal| is_input(problem, literal))
}

fn bad_names_input(problem: &Problem) -> bool {
    problem.bad.iter().any(|clause| names_input(problem, clause))
}

/// The problem with its inputs and helpers taken out of the Bad clauses: fewer states are bad, or as many.
fn without_input_literals(problem: &Problem) -> Problem {
    let mut other = problem.clone();
    other.bad.iter_mut().for_each(|clause| clause.retain(|&literal| !is_input(problem, literal)));
    other
}

/// The problem without the Bad clauses that name an input or helper: more states are bad, or as many.
fn without_input_clauses(problem: &Problem) -> Problem {
    let mut other = problem.clone();
    other.bad.retain(|clause| !names_input(problem, clause));
    other
}

fn same_rows(problem: &Problem, other: &Problem) -> bool {
    Walk::of(problem).minimal_sets() == Walk::of(other).minimal_sets()
}

#[test]
fn bad_often_names_inputs_and_safety_depends_on_them_both_ways() {
    let with_inputs: Vec<Problem> = files().filter(|problem| problem.m > 0).collect();
    let count = |test: &dyn Fn(&Problem) -> bool| with_inputs.iter().filter(|problem| test(problem)).count();
    let some_bad = |problem: &Problem, test: &dyn Fn(&Clause) -> bool| problem.bad.iter().any(test);
    let mixed = |problem: &Problem, clause: &Clause| clause.iter().any(|&literal| !is_input(problem, literal));
    let alone = |problem: &Problem, clause: &Clause| names_input(problem, clause) && !mixed(problem, clause);
    let counts = [
        count(&|problem| some_bad(problem, &|clause| names_input(problem, clause) && mixed(problem, clause))),
        count(&|problem| some_bad(problem, &|clause| alone(problem, clause))),
        count(&|problem| some_bad(problem, &|clause| alone(problem, clause) && repeats(clause, 1))),
        count(&|problem| some_bad(problem, &|clause| alone(problem, clause) && repeats(clause, -1))),
        count(&|problem| !same_rows(problem, &without_input_literals(problem))),
        count(&|problem| !same_rows(problem, &without_input_clauses(problem))),
    ];
    let (named, all) = (count(&bad_names_input), with_inputs.len());
    println!("{named} of {all}, {counts:?}");
    assert!(3 * named >= all && 2 * named <= all, "{named} of {all}");
    assert!(counts.iter().all(|&found| found >= 200), "{counts:?}");
}

#[test]
fn the_files_hold_every_oddity_and_every_ending() {
    let all: Vec<Problem> = files().collect();
    let count = |test: &dyn Fn(&Problem) -> bool| all.iter().filter(|problem| test(problem)).count();
    let counts = [
        count(&|problem| problem.init.is_empty()),
        count(&|problem| problem.tr.is_empty()),
        count(&|problem| problem.bad.is_empty()),
        count(&|problem| problem.lemmas.is_empty()),
        count(&|problem| problem.n == 3 && problem.m == 2 && problem.k() == 5),
        count(&|problem| some_clause(problem, |clause| clause.is_empty())),
        count(&|problem| some_clause(problem, |clause| repeats(clause, 1))),
        count(&|problem| some_clause(problem, |clause| repeats(clause, -1))),
        count(&|problem| has_equal(&problem.lemmas) || has_equal(&problem.tr)),
        count(&|problem| Walk::of(problem).minimal_sets().is_empty()),
        count(&|problem| Walk::of(problem).minimal_sets().len() == 1),
        count(&|problem| Walk::of(problem).minimal_sets().len() > 1),
    ];
    println!("{counts:?}");
    assert!(counts.iter().all(|&found| found >= 50), "{counts:?}");
}
