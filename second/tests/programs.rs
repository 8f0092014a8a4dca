//! The programs as they are run: the listing program on its standard input, and the comparison.

use second::bench::case;
use std::io::Write;
use std::process::{Command, Stdio};

/// What the listing program prints for this standard input.
fn listed(input: &[u8]) -> String {
    let mut program = Command::new(env!("CARGO_BIN_EXE_second_list"))
        .stdin(Stdio::piped())
        .stdout(Stdio::piped())
        .spawn()
        .expect("the program starts");
    let mut stdin = program.stdin.take().expect("its standard input");
    // A program that has read enough closes its end; that is no fault.
    let _ = stdin.write_all(input);
    drop(stdin);
    let output = program.wait_with_output().expect("the program ends");
    assert!(output.status.success());
    String::from_utf8(output.stdout).expect("its text")
}

#[test]
fn the_listing_program_prints_the_text_of_document_01() {
    assert_eq!(listed(&case("B").file()), "complete 2 3\n100\n011\n");
    assert_eq!(listed(&case("G").file()), "none 0 0\n");
    assert_eq!(listed(&case("I").file()), "complete 1 0\n\n");
    let file = case("L").file();
    assert_eq!(listed(&file[..45]), "bad 2 42\n");
    assert_eq!(listed(&[&file[..], &[0]].concat()), "bad 8 46\n");
    assert_eq!(listed(b""), "bad 2 0\n");
}

#[test]
fn the_listing_program_refuses_a_long_input_however_long() {
    for more in [1, 2, 500_000] {
        assert_eq!(listed(&vec![0; 65_536 + more]), "bad 1 0\n");
    }
}

#[test]
fn the_comparison_prints_its_seed_its_calls_and_what_it_found() {
    let output = Command::new(env!("CARGO_BIN_EXE_compare")).args(["3000", "9"]).output();
    let output = output.expect("the program runs");
    let text = String::from_utf8(output.stdout).expect("its text");
    assert!(output.status.success(), "{text}");
    assert!(text.starts_with("seed 9\n"), "{text}");
    assert!(text.contains(" calls;") && text.contains("no difference"), "{text}");
    assert!(text.contains("; inputs in Bad: check "), "{text}");
}

#[test]
fn the_comparison_over_circuits_prints_the_same_and_what_its_texts_were() {
    // With no library it compares with itself and with one mutant.
    let mut alone = Command::new(env!("CARGO_BIN_EXE_compare_circuits"));
    let output = alone.args(["2000", "9"]).env_remove("TRIM_DRIVER").output();
    let output = output.expect("the program runs");
    let text = String::from_utf8(output.stdout).expect("its text");
    assert!(output.status.success(), "{text}");
    assert!(text.starts_with("seed 9\n"), "{text}");
    assert!(text.contains(" calls;") && text.contains("no difference"), "{text}");
    assert!(text.contains("; texts: whole ") && text.contains("; read: check "), "{text}");
    assert!(text.contains("; edition 2007\n") && text.contains("; edition 1.9: headers 2"), "{text}");
    assert_eq!(text.matches("no difference").count(), 2, "{text}");
    assert!(text.contains("the mutant constraint-missing-in-bad: number"), "{text}");
}
