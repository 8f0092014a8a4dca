//! The two real files, with the counts an outside program has given for them.

use second::jobs::{call, Job, Report};
use second::mutants::Rules;
use second::text::listing_text;
use std::fs;
use std::path::PathBuf;

fn file(name: &str) -> Vec<u8> {
    let path = PathBuf::from(env!("CARGO_MANIFEST_DIR")).join("../cases").join(name);
    fs::read(path).expect("the file is stored")
}

fn marked(name: &str, job: Job, marks: &str, decisions: u64) {
    let mut lent = vec![0xA5; marks.len()];
    let report = call(job, &file(name), u32::MAX, &mut lent, Rules::TRUE);
    assert_eq!(report, Report { decisions, ..Report::default() });
    let digits: String = lent.iter().map(|mark| mark.to_string()).collect();
    assert_eq!(digits, marks);
}

#[test]
fn their_sizes() {
    let sizes = |name: &str| call(Job::Check, &file(name), 0, &mut [], Rules::TRUE);
    assert_eq!(sizes("loader.problem"), Report { n: 14, m: 194, k: 12, ..Report::default() });
    assert_eq!(sizes("ledger.problem"), Report { n: 12, m: 120, k: 27, ..Report::default() });
}

#[test]
fn ledger_largest_and_one() {
    marked("ledger.problem", Job::Largest, "101000111100101110101110101", 17_903);
    marked("ledger.problem", Job::One, "100000111000101110101000101", 83_680);
}

#[test]
fn ledger_listing() {
    let text = listing_text(&file("ledger.problem"));
    assert_eq!(text, "complete 1 875222\n100000111000101110101000101\n");
}

#[test]
fn loader_largest() {
    marked("loader.problem", Job::Largest, "111111111111", 681_286);
}

#[test]
fn loader_one() {
    marked("loader.problem", Job::One, "111111111111", 5_602_356);
}

#[test]
fn loader_listing_is_spent() {
    assert_eq!(listing_text(&file("loader.problem")), "spent 0 1000000\n");
}
