//! Problems in the notation of the paper's bench cases, read and written:
//! `n=2 m=0; Init (1)(2); Tr (-3 2); Bad (-2); lemmas (1),(2)`. A kind left out has no clauses.

use crate::file::{Clause, Problem};
use std::fmt;

/// Reads the notation. It is only for texts of our own, so a text it cannot read is a panic.
pub fn problem(text: &str) -> Problem {
    let mut result = Problem::default();
    for part in text.split(';').map(str::trim).filter(|part| !part.is_empty()) {
        let (name, rest) = part.split_once(' ').unwrap_or((part, ""));
        match name {
            "Init" => result.init = clauses(rest),
            "Tr" => result.tr = clauses(rest),
            "Bad" => result.bad = clauses(rest),
            "lemmas" => result.lemmas = clauses(rest),
            _ => sizes(part, &mut result),
        }
    }
    result
}

fn sizes(part: &str, result: &mut Problem) {
    for word in part.split_whitespace() {
        let (name, number) = word.split_once('=').expect("a size is written n=.. or m=..");
        let number = number.parse().expect("a size is a number");
        match name {
            "n" => result.n = number,
            "m" => result.m = number,
            _ => panic!("no size has the name {name}"),
        }
    }
}

fn clauses(text: &str) -> Vec<Clause> {
    let bodies = text.split('(').skip(1);
    bodies.map(|body| clause(body.split(')').next().unwrap_or(""))).collect()
}

fn clause(text: &str) -> Clause {
    let numbers = text.split_whitespace();
    numbers.map(|word| word.parse().expect("a literal is a number")).collect()
}

impl fmt::Display for Problem {
    fn fmt(&self, out: &mut fmt::Formatter) -> fmt::Result {
        write!(out, "n={} m={}", self.n, self.m)?;
        let lists = [("Init", &self.init), ("Tr", &self.tr), ("Bad", &self.bad)];
        for (name, list) in lists.into_iter().chain([("lemmas", &self.lemmas)]) {
            if !list.is_empty() {
                let bodies: Vec<String> = list.iter().map(|clause| body(clause)).collect();
                let between = if name == "lemmas" { "," } else { "" };
                write!(out, "; {name} {}", bodies.join(between))?;
            }
        }
        Ok(())
    }
}

fn body(clause: &[i16]) -> String {
    let words: Vec<String> = clause.iter().map(|literal| literal.to_string()).collect();
    format!("({})", words.join(" "))
}
