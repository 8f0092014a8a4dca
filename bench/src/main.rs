//! The benchmark: the proved library and the second program on the same calls, in one run, with the ratio of their times; how times grow
//! with n and with k; how long reading takes at worst; and the peak stack of each job. `bench/run` builds both for this machine and prints the tables.

mod library;
mod reading;
mod stack;

use second::families::{arbiter, counter, ring};
use second::file::Problem;
use second::jobs::{self, Job};
use second::loader::loader;
use second::mutants::Rules;
use std::time::Instant;

const SPACE: usize = 65_536;

/// The best of several turns, in microseconds: a machine at work only makes a call slower.
fn best(mut turn: impl FnMut()) -> f64 {
    let mut best = f64::MAX;
    let begun = Instant::now();
    for _ in 0..200 {
        let start = Instant::now();
        turn();
        best = best.min(start.elapsed().as_secs_f64() * 1e6);
        if begun.elapsed().as_secs_f64() > 2.0 {
            break;
        }
    }
    best
}

/// One line: a call to both, the decisions (which must agree), both times and their ratio.
fn line(name: &str, job: Job, file: &[u8], budget: u32) {
    let mut lent = vec![0u8; SPACE];
    let report = library::call(job, file, budget, &mut lent);
    let other = jobs::call(job, file, budget, &mut lent, Rules::TRUE);
    assert_eq!((report[0], report[2], report[3]), (other.number, other.decisions, other.rows), "{name}");
    let proved = best(|| {
        library::call(job, file, budget, &mut lent);
    });
    let second = best(|| {
        jobs::call(job, file, budget, &mut lent, Rules::TRUE);
    });
    println!(
        "{name:<14} {:<8} {:>10} {:>14.1} {:>14.1} {:>8.2}",
        job.name(),
        report[2],
        proved,
        second,
        second / proved
    );
}

fn head() {
    println!(
        "{:<14} {:<8} {:>10} {:>14} {:>14} {:>8}",
        "file", "job", "decisions", "proved, us", "second, us", "ratio"
    );
}

fn stored(name: &str) -> Vec<u8> {
    let folder = concat!(env!("CARGO_MANIFEST_DIR"), "/../cases/");
    std::fs::read(format!("{folder}{name}.problem")).expect("a stored case")
}

/// A file of 65,536 bytes, all of it checked: Tr clauses of 64 literals.
fn full() -> Vec<u8> {
    let clause: Vec<i16> = (0..64).map(|at| if at % 2 == 0 { at + 1 } else { -(at + 1) }).collect();
    let mut problem = Problem { n: 32, m: 0, ..Problem::default() };
    problem.tr = vec![clause; 496];
    let short = problem.to_bytes().len();
    let left = (SPACE - short - 4) / 2;
    problem.tr.push((0..left as i16).map(|at| at % 32 + 1).collect());
    let bytes = problem.to_bytes();
    assert!(bytes.len() > SPACE - 4 && bytes.len() <= SPACE, "{}", bytes.len());
    bytes
}

/// Every variable but one wants a decision of its own: a step question 510 decisions deep.
fn deep_search() -> Vec<u8> {
    let next = 97;
    let twice = |v: i16| vec![v, v];
    let tr = (1..=512).filter(|&v| v != next).map(twice).collect();
    let problem = Problem { n: 96, m: 320, init: vec![vec![1]], tr, lemmas: vec![vec![1]], ..Problem::default() };
    problem.to_bytes()
}

/// All 128 clauses over seven variables: only together are they safe, so the listing goes 128 nodes deep.
fn deep_listing() -> Vec<u8> {
    let clause = |signs: i16| (1..=7).map(|v| if signs >> (v - 1) & 1 == 1 { v } else { -v }).collect();
    let problem = Problem {
        n: 7,
        init: vec![vec![]],
        tr: vec![vec![]],
        lemmas: (0..128).map(clause).collect(),
        ..Problem::default()
    };
    problem.to_bytes()
}

fn peaks() {
    println!("\npeak stack of the proved library, bytes (the default stack is 8,388,608)");
    let chain = reading::backwards();
    let taken = stack::peak(move || {
        library::circuit_check(&chain, &[]);
    });
    println!("{:<14} {:<8} {taken:>10}", "gates back", "circuit");
    let calls: [(&str, Job, Vec<u8>); 6] = [
        ("a full file", Job::Check, full()),
        ("510 decisions", Job::Largest, deep_search()),
        ("510 decisions", Job::One, deep_search()),
        ("510 decisions", Job::List, deep_search()),
        ("128 nodes", Job::List, deep_listing()),
        ("ledger", Job::List, stored("ledger")),
    ];
    for (name, job, file) in calls {
        let taken = stack::peak(move || {
            let mut lent = vec![0u8; SPACE];
            library::call(job, &file, 1_000_000, &mut lent);
        });
        println!("{name:<14} {:<8} {taken:>10}", job.name());
    }
}

fn main() {
    let said = |word: &str| std::env::args().any(|given| given == word);
    if said("stack") {
        return peaks();
    }
    if said("reading") {
        return reading::lines();
    }
    let long = said("long");
    head();
    line("full", Job::Check, &full(), 0);
    for name in ["ledger", "loader-1", "loader-2"] {
        for job in [Job::Largest, Job::One, Job::List] {
            line(name, job, &stored(name), 1_000_000);
        }
    }
    line("loader", Job::Largest, &stored("loader"), 1_000_000);
    line("loader", Job::List, &stored("loader"), 1_000_000);
    if long {
        line("loader", Job::One, &stored("loader"), u32::MAX);
    }
    println!("\nhow times grow with n: an n-bit counter");
    head();
    for bits in [2, 4, 8, 16, 24] {
        line(&format!("counter-{bits}"), Job::One, &counter(bits).to_bytes(), 1_000_000);
    }
    println!("\nhow times grow with k: a token ring, and an arbiter whose rows double");
    head();
    for stations in [3, 4, 5, 6, 7] {
        line(&format!("ring-{stations}"), Job::One, &ring(stations).to_bytes(), 1_000_000);
    }
    for clients in [2, 4, 6, 8] {
        line(&format!("arbiter-{clients}"), Job::List, &arbiter(clients).to_bytes(), 1_000_000);
    }
    line("loader-3", Job::Largest, &loader(3).to_bytes(), 1_000_000);
    println!();
    reading::lines();
    peaks();
}
