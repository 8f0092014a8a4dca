//! The comparison: the same calls to two subjects, over random, damaged, limit-sized and bench files.

use crate::bench::CASES;
use crate::damage::damaged;
use crate::families::FAMILIES;
use crate::file::read;
use crate::jobs::Job;
use crate::limits::{fixed, random_large, Source};
use crate::mutants::Rules;
use crate::random::{problem, Random, Sizes, SMALL};
use crate::refusals::refusals;
use crate::shrink::shrink;
use crate::subject::{Call, Second, Subject};
use std::fmt;

const CAP: u32 = 2_000;
/// The fixed files come when so many random ones have been tried.
const FIXED_TURN: usize = 200;
const MEDIUM: Sizes = Sizes { n: 6, m: 5, clauses: 12, lemmas: 6, literals: 5 };

/// What a comparison found: the calls made, how often each number was the answer, for each job the calls with an
/// accepted file whose Bad names an input or helper, and the first difference made small.
pub struct Found {
    pub calls: usize,
    pub numbers: [usize; 13],
    pub bad_inputs: [usize; Job::ALL.len()],
    pub difference: Option<String>,
}

/// Makes at least so many calls to both subjects, or fewer if one shows a difference.
pub fn compare(one: &dyn Subject, other: &dyn Subject, calls: usize, seed: u64) -> Found {
    let mut random = Random(seed);
    let mut found = Found { calls: 0, numbers: [0; 13], bad_inputs: [0; Job::ALL.len()], difference: None };
    let mut waiting: Vec<Source> = Vec::new();
    for turn in 0.. {
        if found.calls >= calls {
            break;
        }
        if turn == FIXED_TURN {
            waiting = fixed();
            waiting.extend(refusals().into_iter().map(|refused| plain(refused.file)));
        }
        let source = waiting.pop().unwrap_or_else(|| source(&mut random));
        let bad_inputs = bad_names_inputs(&source.file);
        for call in calls_with(&source, &mut random) {
            let outcome = call.outcome(one);
            found.calls += 1;
            found.numbers[(outcome.report.number as usize).min(12)] += 1;
            found.bad_inputs[call.job as usize] += bad_inputs as usize;
            if outcome != call.outcome(other) {
                found.difference = Some(explain(call, one, other));
                return found;
            }
        }
    }
    found
}

/// Whether the file is accepted and a literal of its Bad is over 2n.
fn bad_names_inputs(file: &[u8]) -> bool {
    let Ok(problem) = read(file, Rules::TRUE) else {
        return false;
    };
    problem.bad.iter().flatten().any(|literal| literal.unsigned_abs() as usize > 2 * problem.n)
}

/// The difference on a small file, with both answers.
fn explain(call: Call, one: &dyn Subject, other: &dyn Subject) -> String {
    let small = shrink(call, &|call| call.differs(one, other));
    let answers = [one, other].map(|subject| format!("{}: {}", subject.name(), small.outcome(subject)));
    format!("{small}\n{}\n{}", answers[0], answers[1])
}

fn plain(file: Vec<u8>) -> Source {
    Source { file, cap: CAP, jobs: &Job::ALL }
}

/// The next file: mostly small and random, some larger, damaged, from the bench, or near the limits.
fn source(random: &mut Random) -> Source {
    match random.below(100) {
        0..=49 => plain(problem(random, SMALL).to_bytes()),
        50..=64 => plain(problem(random, MEDIUM).to_bytes()),
        65..=89 => {
            let whole = problem(random, SMALL).to_bytes();
            plain(damaged(random, &whole))
        }
        90..=93 => plain(CASES[random.below(CASES.len())].file()),
        94..=96 => {
            let whole = CASES[random.below(CASES.len())].file();
            plain(damaged(random, &whole))
        }
        97..=98 => {
            let family = &FAMILIES[random.below(FAMILIES.len())];
            let file = (family.make)(family.sizes[random.below(2)]).to_bytes();
            Source { file, cap: 60, jobs: &Job::ALL }
        }
        _ => random_large(random),
    }
}

/// The calls with one file: every job, budgets around its own count, spaces around its rows.
fn calls_with(source: &Source, random: &mut Random) -> Vec<Call> {
    let mut calls = Vec::new();
    for &job in source.jobs {
        let file = source.file.clone();
        let call = Call { job, file, budget: source.cap, space: 0 };
        let Some(problem) = call.problem() else {
            let few = [(0, 0), (0, 1), (7, 3), (u32::MAX, 9)];
            calls.extend(few.map(|(budget, space)| Call { budget, space, ..call.clone() }));
            continue;
        };
        let k = problem.k();
        let wide = Call { space: 100 * k, ..call };
        let own = wide.outcome(&Second(Rules::TRUE)).report;
        let enough = if own.number == 10 { source.cap } else { u32::MAX };
        let exact = k * (own.rows as usize).max(1);
        let budgets = budgets(own.decisions as u32, enough);
        let spaces = spaces(k, exact);
        calls.extend(budgets.iter().map(|&budget| Call { budget, space: exact, ..wide.clone() }));
        calls.extend(spaces.iter().map(|&space| Call { budget: enough, space, ..wide.clone() }));
        for _ in 0..3 {
            let budget = budgets[random.below(budgets.len())];
            let space = spaces[random.below(spaces.len())];
            calls.push(Call { budget, space, ..wide.clone() });
        }
    }
    calls
}

/// 0, 1, 2, 3, half the own count, around it, and the largest.
fn budgets(own: u32, enough: u32) -> Vec<u32> {
    let around = [own.saturating_sub(2), own.saturating_sub(1), own, own.saturating_add(1)];
    let mut all = [&[0, 1, 2, 3, own / 2][..], &around, &[enough]].concat();
    all.retain(|&budget| budget <= enough);
    all.sort();
    all.dedup();
    all
}

/// 0, 1, around one row, around the exact space, and more.
fn spaces(k: usize, exact: usize) -> Vec<usize> {
    let row = [k.saturating_sub(1), k, k + 1];
    let around = [exact.saturating_sub(k), exact.saturating_sub(1), exact, exact + 1, exact + k + 5];
    let mut all = [&[0, 1][..], &row, &around].concat();
    all.sort();
    all.dedup();
    all
}

impl fmt::Display for Found {
    fn fmt(&self, out: &mut fmt::Formatter) -> fmt::Result {
        write!(out, "{} calls;", self.calls)?;
        for (number, times) in self.numbers.iter().enumerate() {
            write!(out, " {number}: {times}")?;
        }
        write!(out, "; inputs in Bad:")?;
        for (job, times) in Job::ALL.into_iter().zip(self.bad_inputs) {
            write!(out, " {} {times}", job.name())?;
        }
        match &self.difference {
            None => write!(out, "\nno difference"),
            Some(difference) => write!(out, "\na difference, on this small call:\n{difference}"),
        }
    }
}
