//! Every refused file of `cases/refusals`, with the number and the place that its index gives, through all four functions.

mod common;

use common::path;
use trim_example::{check, largest, list, one, Refusal};

fn bytes(name: &str) -> Vec<u8> {
    std::fs::read(path(name)).unwrap_or_else(|error| panic!("{name}: {error}"))
}

/// A line of the index: a file's name, and its refusal.
fn line(text: &str) -> (String, Refusal) {
    let mut words = text.split(' ');
    let mut word = || words.next().unwrap_or_else(|| panic!("a short line: {text}"));
    let name = format!("refusals/{}.problem", word());
    let number = word().parse().expect("a number");
    let place = word().parse().expect("a place");
    (name, Refusal { number, place: Some(place), text: None, decisions: 0 })
}

fn index() -> Vec<(String, Refusal)> {
    let text = String::from_utf8(bytes("refusals/INDEX.txt")).expect("the index is text");
    text.lines().filter(|text| !text.starts_with('#')).map(line).collect()
}

#[test]
fn every_file_is_refused_as_the_index_says() {
    for (name, refusal) in index() {
        let file = bytes(&name);
        assert_eq!(check(&file), Err(refusal), "check {name}");
        assert_eq!(largest(&file, 0), Err(refusal), "largest {name}");
        assert_eq!(one(&file, u32::MAX), Err(refusal), "one {name}");
        assert_eq!(list(&file, u32::MAX, 0), Err(refusal), "list {name}");
    }
}

#[test]
fn the_index_has_every_file_and_every_number() {
    let files = std::fs::read_dir(path("refusals")).expect("the folder").map(|entry| entry.expect("an entry").path());
    let stored = files.filter(|file| file.extension().is_some_and(|end| end == "problem")).count();
    let index = index();
    assert_eq!(index.len(), stored);
    for number in 1..=8 {
        assert!(index.iter().any(|(_, refusal)| refusal.number == number), "no file is refused by {number}");
    }
}

#[test]
fn an_empty_file_is_cut_short_at_its_start() {
    let refusal = Refusal { number: 2, place: Some(0), text: None, decisions: 0 };
    assert_eq!(check(&[]), Err(refusal));
    assert_eq!(largest(&[], 0), Err(refusal));
    assert_eq!(one(&[], 0), Err(refusal));
    assert_eq!(list(&[], 0, 0), Err(refusal));
}
