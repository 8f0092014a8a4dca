//! Every value document 01 states of its bench cases A to K, two counted cases of an outside program, and the loader
//! of request 2026-01 whose Bad looks at its checksum line.

use second::bench::case;
use second::jobs::{call, Job, Report};
use second::mutants::Rules;
use second::text::{listing_text, text_within};

const LARGEST_BUDGET: u32 = u32::MAX;
const UNTOUCHED: u8 = 0xA5;

/// Calls a job with lent bytes of a pattern; gives the report and the bytes afterwards.
fn done(name: &str, job: Job, budget: u32, space: usize) -> (Report, Vec<u8>) {
    let mut lent = vec![UNTOUCHED; space];
    let report = call(job, &case(name).file(), budget, &mut lent, Rules::TRUE);
    (report, lent)
}

fn answer(decisions: u64, rows: u64) -> Report {
    Report { decisions, rows, ..Report::default() }
}

fn refusal(number: u64, decisions: u64, rows: u64) -> Report {
    Report { number, decisions, rows, ..Report::default() }
}

/// The job is answered with these marks and this count; one byte after the marks is untouched.
fn marked(name: &str, job: Job, marks: &[u8], decisions: u64) {
    let (report, lent) = done(name, job, LARGEST_BUDGET, marks.len() + 1);
    assert_eq!(report, answer(decisions, 0), "{name}");
    assert_eq!(lent, [marks, &[UNTOUCHED]].concat(), "{name}");
    let (report, lent) = done(name, job, decisions as u32, marks.len());
    assert_eq!((report, lent), (answer(decisions, 0), marks.to_vec()), "{name} with its own budget");
}

/// The listing is complete with these rows and this count; one byte after them is untouched.
fn listed(name: &str, rows: &[&[u8]], decisions: u64) {
    let bytes = rows.concat();
    let (report, lent) = done(name, Job::List, LARGEST_BUDGET, bytes.len() + 1);
    assert_eq!(report, answer(decisions, rows.len() as u64), "{name}");
    assert_eq!(lent, [bytes.as_slice(), &[UNTOUCHED]].concat(), "{name}");
}

/// The job is refused, and no lent byte is touched.
fn refused(name: &str, job: Job, budget: u32, number: u64, decisions: u64) {
    let (report, lent) = done(name, job, budget, 8);
    assert_eq!(report, refusal(number, decisions, 0), "{name}");
    assert_eq!(lent, [UNTOUCHED; 8], "{name}");
}

#[test]
fn a_keeps_both_lemmas() {
    marked("A", Job::One, &[1, 1], 0);
    marked("A", Job::Largest, &[1, 1], 0);
}

#[test]
fn b_has_two_rows_and_its_one_set_is_the_last() {
    listed("B", &[&[1, 0, 0], &[0, 1, 1]], 3);
    marked("B", Job::One, &[0, 1, 1], 0);
    assert_eq!(listing_text(&case("B").file()), "complete 2 3\n100\n011\n");
}

#[test]
fn c_stops_b_by_its_budget() {
    let (report, lent) = done("B", Job::List, 2, 9);
    assert_eq!(report, refusal(10, 2, 1));
    assert_eq!(lent, [1, 0, 0, UNTOUCHED, UNTOUCHED, UNTOUCHED, UNTOUCHED, UNTOUCHED, UNTOUCHED]);
    refused("B", Job::List, 1, 10, 1);
    refused("B", Job::List, 0, 10, 0);
}

#[test]
fn d_stops_b_by_its_room() {
    let (report, lent) = done("B", Job::List, LARGEST_BUDGET, 5);
    assert_eq!(report, refusal(12, 3, 1));
    assert_eq!(lent, [1, 0, 0, UNTOUCHED, UNTOUCHED]);
    let (report, lent) = done("B", Job::List, LARGEST_BUDGET, 2);
    assert_eq!(report, refusal(12, 2, 0));
    assert_eq!(lent, [UNTOUCHED; 2]);
}

#[test]
fn e_has_an_empty_largest_set_that_is_not_safe() {
    marked("E", Job::Largest, &[0], 0);
    refused("E", Job::One, LARGEST_BUDGET, 11, 0);
}

#[test]
fn f_lists_equal_lemmas_apart() {
    listed("F", &[&[1, 0], &[0, 1]], 0);
}

#[test]
fn g_fails_initiation() {
    marked("G", Job::Largest, &[0], 0);
    refused("G", Job::One, LARGEST_BUDGET, 11, 0);
    refused("G", Job::List, LARGEST_BUDGET, 11, 0);
}

#[test]
fn h_counts_a_literal_that_stands_twice() {
    for job in [Job::One, Job::List] {
        refused("H", job, LARGEST_BUDGET, 11, 1);
        refused("H", job, 1, 11, 1);
        refused("H", job, 0, 10, 0);
    }
    marked("H", Job::Largest, &[], 0);
}

#[test]
fn i_lists_one_row_of_no_bytes() {
    listed("I", &[&[]], 0);
    let (report, _) = done("I", Job::List, 0, 0);
    assert_eq!(report, answer(0, 1));
    marked("I", Job::One, &[], 0);
    assert_eq!(listing_text(&case("I").file()), "complete 1 0\n\n");
}

#[test]
fn j_drops_the_two_that_hold_only_together() {
    listed("J", &[&[0, 0, 1]], 1);
    refused("J", Job::List, 0, 10, 0);
    marked("J", Job::One, &[0, 0, 1], 0);
}

#[test]
fn k_keeps_the_empty_clause() {
    marked("K", Job::One, &[1], 0);
    marked("K", Job::Largest, &[1], 0);
}

#[test]
fn p_counts_as_the_outside_program_does() {
    marked("P", Job::One, &[0, 0, 1, 1, 0], 43);
    listed("P", &[&[0, 0, 1, 1, 0]], 126);
}

#[test]
fn q_counts_as_the_outside_program_does() {
    marked("Q", Job::Largest, &[0, 0, 0], 1);
    refused("Q", Job::One, LARGEST_BUDGET, 11, 1);
    refused("Q", Job::List, LARGEST_BUDGET, 11, 1);
}

#[test]
fn checksum_is_safe_by_either_form_of_its_keys_lemma() {
    marked("checksum", Job::Largest, &[1, 1, 1, 0, 1, 0], 0);
    marked("checksum", Job::One, &[0, 0, 0, 0, 1, 0], 3);
    listed("checksum", &[&[0, 1, 1, 0, 0, 0], &[0, 0, 0, 0, 1, 0]], 24);
    refused("checksum", Job::One, 2, 10, 2);
    assert_eq!(listing_text(&case("checksum").file()), "complete 2 24\n011000\n000010\n");
}

#[test]
fn checksum_stopped_keeps_the_rows_found() {
    for (budget, rows) in [(0, 0), (17, 0), (18, 1), (23, 1)] {
        let (report, _) = done("checksum", Job::List, budget, 12);
        assert_eq!(report, refusal(10, budget as u64, rows));
    }
    let (report, _) = done("checksum", Job::List, 24, 12);
    assert_eq!(report, answer(24, 2));
    for (space, decisions, rows) in [(0, 18, 0), (5, 18, 0), (6, 24, 1), (11, 24, 1)] {
        let (report, _) = done("checksum", Job::List, LARGEST_BUDGET, space);
        assert_eq!(report, refusal(12, decisions, rows));
    }
}

#[test]
fn the_text_names_each_ending() {
    assert_eq!(text_within(&case("B").file(), 3, 6), "complete 2 3\n100\n011\n");
    assert_eq!(text_within(&case("B").file(), 2, 6), "spent 1 2\n100\n");
    assert_eq!(text_within(&case("B").file(), 3, 5), "room 1 3\n100\n");
    assert_eq!(listing_text(&case("G").file()), "none 0 0\n");
    assert_eq!(listing_text(&case("H").file()), "none 0 1\n");
    assert_eq!(listing_text(&[]), "bad 2 0\n");
    assert_eq!(listing_text(&vec![0; 65_537]), "bad 1 0\n");
}
