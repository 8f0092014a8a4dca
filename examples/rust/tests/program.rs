//! The program, run on problem files: what it prints and how it ends.

mod common;

use common::path;
use std::process::{Command, Output};

fn run(words: &[&str]) -> Output {
    Command::new(env!("CARGO_BIN_EXE_trim-example")).args(words).output().expect("the program runs")
}

fn run_on(name: &str) -> Output {
    run(&[path(name).to_str().expect("a path of text")])
}

fn text(bytes: &[u8]) -> &str {
    std::str::from_utf8(bytes).expect("text")
}

#[test]
fn it_prints_a_line_for_each_kept_lemma() {
    let output = run_on("B.problem");
    assert_eq!(text(&output.stdout), "watch lemma 1\nwatch lemma 2\n");
    assert_eq!(text(&output.stderr), "");
    assert!(output.status.success());
}

#[test]
fn the_ledger_gets_twelve_tests() {
    let output = run_on("ledger.problem");
    let kept = [0, 6, 7, 8, 12, 14, 15, 16, 18, 20, 24, 26];
    let lines: String = kept.iter().map(|position| format!("watch lemma {position}\n")).collect();
    assert_eq!(text(&output.stdout), lines);
    assert!(output.status.success());
}

#[test]
fn a_refusal_is_said_on_standard_error() {
    let output = run_on("refusals/2-head.problem");
    assert_eq!(text(&output.stdout), "");
    assert_eq!(text(&output.stderr), "trim-example: refusal 2 at byte 42: a record is cut short\n");
    assert_eq!(output.status.code(), Some(1));
}

#[test]
fn it_takes_one_file() {
    for words in [&[][..], &["a", "b"]] {
        let output = run(words);
        assert_eq!(text(&output.stderr), "trim-example: usage: trim-example FILE\n");
        assert_eq!(output.status.code(), Some(1));
    }
}

#[test]
fn a_file_that_is_not_there_is_said_to_be() {
    let output = run_on("not-there.problem");
    assert_eq!(text(&output.stdout), "");
    assert!(text(&output.stderr).contains("not-there.problem: No such file"), "{}", text(&output.stderr));
    assert_eq!(output.status.code(), Some(1));
}
