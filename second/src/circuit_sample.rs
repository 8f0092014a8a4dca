//! A stored pair of circuit text and lemma text with what is to be said of it.

/// A pair of texts: its name, what it is, and the number and place of its refusal, or number 0.
pub struct Sample {
    pub name: String,
    pub line: String,
    pub circuit: Vec<u8>,
    pub lemmas: Vec<u8>,
    pub number: u64,
    pub place: u64,
}

/// The sign before the line at fault in a text that is written down; it is no part of the text.
const FAULT: u8 = b'@';

/// A pair that is refused by 13 at the line with the sign, or that has no such line and the number given.
pub fn sample(name: &str, line: &str, circuit: &[u8], lemmas: &[u8], number: u64) -> Sample {
    let (circuit, circuit_place) = split_fault(circuit);
    let (lemmas, lemma_place) = split_fault(lemmas);
    let place = circuit_place.or(lemma_place);
    let number = if place.is_some() { 13 } else { number };
    let place = place.unwrap_or(0);
    Sample { name: name.to_string(), line: line.to_string(), circuit, lemmas, number, place }
}

fn split_fault(text: &[u8]) -> (Vec<u8>, Option<u64>) {
    match text.iter().position(|&byte| byte == FAULT) {
        Some(at) => ([&text[..at], &text[at + 1..]].concat(), Some(at as u64)),
        None => (text.to_vec(), None),
    }
}

/// A circuit of one input, one latch, one output and one gate, with room for a lemma about latch 1.
pub const PLAIN: &str = "aag 3 1 1 1 1\n2\n4 6\n4\n6 2 5\n";

/// The same in edition 1.9: the latch starts at itself, the output is a bad literal, and the input is constrained to 0.
pub const NEWER: &str = "aag 3 1 1 0 1 1 1\n2\n4 6 4\n4\n3\n6 2 5\n";
