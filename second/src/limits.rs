//! Files at the limits of the format, and the real ones, each with a budget that keeps a call on it short.

use crate::file::{Problem, BAD};
use crate::jobs::Job;
use crate::notation::problem;
use crate::random::{self, Random, Sizes};

/// A file to call with: the largest budget to be used where its own count is larger, and the jobs
/// that end soon enough.
#[derive(Clone)]
pub struct Source {
    pub file: Vec<u8>,
    pub cap: u32,
    pub jobs: &'static [Job],
}

const MARKED: &[Job] = &[Job::Check, Job::Largest, Job::One];
const LISTED: &[Job] = &[Job::Check, Job::Largest, Job::List];

/// Case M: the largest n and m, and the most lemmas.
pub fn most_of_all() -> Problem {
    let mut most = problem("n=96 m=320; Init (96); Tr (512); Bad (-96)");
    most.lemmas = (0..128).map(|p| vec![1 + p % 96, 96]).collect();
    most
}

/// A search 511 levels deep: every variable but the one the lemma speaks of takes a decision.
pub fn deep_search() -> Problem {
    let mut deep = problem("n=96 m=320; Init (1); lemmas (1 1)");
    deep.tr = (1..=512).filter(|&v| v != 97).map(|v| vec![v, v]).collect();
    deep
}

/// A safety question 416 levels deep: every variable that Bad may name takes a decision.
pub fn deep_safety() -> Problem {
    let mut deep = problem("n=96 m=320");
    deep.bad = deep.named_by(BAD).into_iter().map(|v| vec![v as i16, v as i16]).collect();
    deep
}

/// A listing 128 nodes deep: 32 lemmas that say nothing, then a chain of 96 where each needs the next.
pub fn deep_listing() -> Problem {
    let mut deep = problem("n=96 m=1; Bad (-1 -1)");
    deep.init = (1..=96).map(|v| vec![v]).collect();
    deep.tr = vec![vec![193, 193]];
    for v in 1..=96_i16 {
        let from = (v + 1).min(96);
        deep.tr.extend([vec![-(v + 96), from], vec![v + 96, -from]]);
    }
    deep.lemmas = vec![vec![1, -1]; 32];
    deep.lemmas.extend((1..=96).map(|v| vec![v]));
    deep
}

/// As many clauses as a file may have.
pub fn most_clauses() -> Problem {
    let mut most = problem("n=40 m=20; Bad (-1)(2 2); lemmas (1),(2 3),(-4 -4)");
    most.init = (0..1_000).map(|at| vec![1 + at % 40]).collect();
    let room = Problem::CLAUSES - 1_005;
    most.tr = (0..room as i16).map(|at| vec![1 + at % 100, -(1 + (at * 7) % 100)]).collect();
    most
}

/// As many bytes as a file may have: 496 clauses of 64 literals and one of 24.
pub fn most_bytes() -> Problem {
    let mut most = problem("n=60 m=30");
    most.tr = (0..495).map(|at| (0..64).map(|place| 1 + (at + 3 * place) % 150).collect()).collect();
    most.tr.push((1..=24).collect());
    most.lemmas = vec![(-60..=-1).chain(1..=4).collect()];
    most
}

const LOADER: &[u8] = include_bytes!("../../cases/loader.problem");
const LEDGER: &[u8] = include_bytes!("../../cases/ledger.problem");

/// The fixed files: those at the limits, and the two real ones.
pub fn fixed() -> Vec<Source> {
    let with = |problem: Problem, cap: u32, jobs| Source { file: problem.to_bytes(), cap, jobs };
    let bytes = with(most_bytes(), 6, &Job::ALL);
    let longer = Source { file: [&bytes.file[..], &[0]].concat(), ..bytes.clone() };
    let mut over = most_of_all();
    over.lemmas.push(vec![1]);
    let mut too_many = most_clauses();
    too_many.init.push(vec![1]);
    vec![
        with(most_of_all(), 4, MARKED),
        with(over, 0, &Job::ALL),
        with(deep_search(), 2_000, &Job::ALL),
        with(deep_safety(), 2_000, &Job::ALL),
        with(deep_listing(), 200, LISTED),
        with(most_clauses(), 6, &Job::ALL),
        with(too_many, 0, &Job::ALL),
        bytes,
        longer,
        Source { file: LOADER.to_vec(), cap: 200, jobs: &Job::ALL },
        Source { file: LEDGER.to_vec(), cap: 200, jobs: &Job::ALL },
    ]
}

/// A random large problem; its listing may not end, so it is only marked.
pub fn random_large(random: &mut Random) -> Source {
    let sizes = Sizes { n: 96, m: 320, clauses: 300, lemmas: 128, literals: 6 };
    let file = random::problem(random, sizes).to_bytes();
    Source { file, cap: 5, jobs: MARKED }
}
