//! The bench cases of document 01, the loader whose Bad looks at an input, and the ledger, through the wrapper.

mod common;

use common::path;
use trim_example::{check, largest, list, one, Accepted, Ended, Refusal};

const BUDGET: u32 = 1_000_000;
const SPACE: usize = 65_536;

fn digits(marks: &[bool]) -> String {
    marks.iter().map(|&mark| if mark { '1' } else { '0' }).collect()
}

/// The bytes of a case's file.
fn case(name: &str) -> Vec<u8> {
    std::fs::read(path(&format!("{name}.problem"))).unwrap_or_else(|error| panic!("{name}: {error}"))
}

/// The largest set in digits, with its decisions.
fn largest_of(name: &str) -> Result<(String, u64), Refusal> {
    largest(&case(name), BUDGET).map(|set| (digits(&set.marks), set.decisions))
}

/// The one set in digits, with its decisions.
fn one_of(name: &str) -> Result<(String, u64), Refusal> {
    one(&case(name), BUDGET).map(|set| (digits(&set.marks), set.decisions))
}

/// The rows of a listing in digits, its decisions, and how it ended.
fn listed(name: &str, budget: u32, space: usize) -> Result<(Vec<String>, u64, Ended), Refusal> {
    let listing = list(&case(name), budget, space)?;
    Ok((listing.rows.iter().map(|row| digits(row)).collect(), listing.decisions, listing.ended))
}

fn set(marks: &str, decisions: u64) -> Result<(String, u64), Refusal> {
    Ok((marks.to_string(), decisions))
}

fn rows(rows: &[&str], decisions: u64, ended: Ended) -> Result<(Vec<String>, u64, Ended), Refusal> {
    Ok((rows.iter().map(|row| row.to_string()).collect(), decisions, ended))
}

fn no_place(number: u32, decisions: u64) -> Refusal {
    Refusal { number, place: None, text: None, decisions }
}

#[test]
fn a_needs_both_lemmas() {
    assert_eq!(check(&case("A")), Ok(Accepted { n: 2, m: 0, k: 2 }));
    assert_eq!(one_of("A"), set("11", 0));
}

#[test]
fn b_has_two_rows() {
    assert_eq!(listed("B", BUDGET, SPACE), rows(&["100", "011"], 3, Ended::Complete));
    assert_eq!(one_of("B"), set("011", 0));
    assert_eq!(one(&case("B"), BUDGET).unwrap().positions(), [1, 2]);
}

#[test]
fn c_is_b_with_a_small_budget() {
    assert_eq!(listed("B", 2, SPACE), rows(&["100"], 2, Ended::Spent));
    assert_eq!(listed("B", 1, SPACE), rows(&[], 1, Ended::Spent));
}

#[test]
fn d_is_b_with_a_small_space() {
    assert_eq!(listed("B", BUDGET, 5), rows(&["100"], 3, Ended::Full));
    assert_eq!(listed("B", BUDGET, 2), rows(&[], 2, Ended::Full));
    assert_eq!(listed("B", BUDGET, 6), rows(&["100", "011"], 3, Ended::Complete));
}

#[test]
fn e_has_no_safe_set() {
    assert_eq!(largest_of("E"), set("0", 0));
    assert_eq!(one_of("E"), Err(no_place(11, 0)));
    assert_eq!(listed("E", BUDGET, SPACE), Err(no_place(11, 0)));
}

#[test]
fn f_has_a_row_for_each_of_two_equal_lemmas() {
    assert_eq!(listed("F", BUDGET, SPACE), rows(&["10", "01"], 0, Ended::Complete));
}

#[test]
fn g_fails_initiation() {
    assert_eq!(largest_of("G"), set("0", 0));
    assert_eq!(one_of("G"), Err(no_place(11, 0)));
}

#[test]
fn h_wants_one_decision() {
    assert_eq!(one_of("H"), Err(no_place(11, 1)));
    assert_eq!(one(&case("H"), 0), Err(no_place(10, 0)));
    assert_eq!(listed("H", 0, 0), rows(&[], 0, Ended::Spent));
}

#[test]
fn i_has_one_row_of_no_bytes() {
    assert_eq!(one_of("I"), set("", 0));
    assert_eq!(listed("I", BUDGET, 0), rows(&[""], 0, Ended::Complete));
}

#[test]
fn j_keeps_the_lemma_that_is_needed_alone() {
    assert_eq!(listed("J", BUDGET, SPACE), rows(&["001"], 1, Ended::Complete));
    assert_eq!(one_of("J"), set("001", 0));
}

#[test]
fn k_keeps_the_empty_clause() {
    assert_eq!(one_of("K"), set("1", 0));
}

#[test]
fn l_is_46_bytes_no_more_and_no_less() {
    let mut file = case("L");
    assert_eq!(file.len(), 46);
    assert_eq!(check(&file), Ok(Accepted { n: 1, m: 0, k: 1 }));
    assert_eq!(check(&file[..45]), Err(Refusal { number: 2, place: Some(42), text: None, decisions: 0 }));
    file.push(0);
    assert_eq!(check(&file), Err(Refusal { number: 8, place: Some(46), text: None, decisions: 0 }));
}

#[test]
fn m_is_the_most_of_everything() {
    assert_eq!(check(&case("M")), Ok(Accepted { n: 96, m: 320, k: 128 }));
    assert_eq!(one_of("M"), Err(no_place(11, 12_288)));
}

#[test]
fn the_checksum_line_may_be_low() {
    assert_eq!(check(&case("checksum")), Ok(Accepted { n: 3, m: 3, k: 6 }));
    assert_eq!(largest_of("checksum"), set("111010", 0));
    assert_eq!(one_of("checksum"), set("000010", 3));
    assert_eq!(listed("checksum", BUDGET, SPACE), rows(&["011000", "000010"], 24, Ended::Complete));
}

#[test]
fn the_ledger_keeps_twelve_of_its_sixteen() {
    assert_eq!(check(&case("ledger")), Ok(Accepted { n: 12, m: 120, k: 27 }));
    assert_eq!(largest_of("ledger"), set("101000111100101110101110101", 17_903));
    assert_eq!(one_of("ledger"), set("100000111000101110101000101", 83_680));
}

#[test]
fn calls_run_side_by_side() {
    let file = case("B");
    let sets: Vec<_> = std::thread::scope(|scope| {
        let calls: Vec<_> = (0..4).map(|_| scope.spawn(|| one(&file, BUDGET))).collect();
        calls.into_iter().map(|call| call.join().unwrap()).collect()
    });
    assert_eq!(sets.len(), 4);
    for answer in sets {
        assert_eq!(digits(&answer.unwrap().marks), "011");
    }
}
