//! The four jobs: from a file, a budget and lent bytes to a report, with the lent bytes left as the paper says.

use crate::file::{read, Problem, Refusal};
use crate::listing::{write_marks, Rows};
use crate::mutants::Rules;
use crate::questions::Questions;
use crate::rules::Stop;
use crate::sets::Set;

/// What a call returns. Number 0 is an answer; what the paper does not give is 0.
#[derive(Clone, Copy, PartialEq, Eq, Debug, Default)]
pub struct Report {
    pub number: u64,
    pub place: u64,
    pub decisions: u64,
    pub rows: u64,
    pub n: u64,
    pub m: u64,
    pub k: u64,
}

#[derive(Clone, Copy, PartialEq, Eq, Debug)]
pub enum Job {
    Check,
    Largest,
    One,
    List,
}

impl Job {
    pub const ALL: [Job; 4] = [Job::Check, Job::Largest, Job::One, Job::List];

    pub fn name(self) -> &'static str {
        match self {
            Job::Check => "check",
            Job::Largest => "largest",
            Job::One => "one",
            Job::List => "list",
        }
    }
}

/// Does one job. The checking job uses neither budget nor lent bytes.
pub fn call(job: Job, file: &[u8], budget: u32, lent: &mut [u8], rules: Rules) -> Report {
    match job {
        Job::Check => check(file, rules),
        Job::Largest => largest(file, budget, lent, rules),
        Job::One => one(file, budget, lent, rules),
        Job::List => list(file, budget, lent, rules),
    }
}

/// Checks a file and gives its n, m and k.
pub fn check(file: &[u8], rules: Rules) -> Report {
    match read(file, rules) {
        Err(refusal) => refused(refusal),
        Ok(problem) => Report { n: problem.n as u64, m: problem.m as u64, k: problem.k() as u64, ..Report::default() },
    }
}

/// Marks the largest inductive set.
pub fn largest(file: &[u8], budget: u32, marks: &mut [u8], rules: Rules) -> Report {
    mark(file, budget, marks, rules, |questions| Ok(questions.largest()?))
}

/// Marks one minimal safe inductive set.
pub fn one(file: &[u8], budget: u32, marks: &mut [u8], rules: Rules) -> Report {
    mark(file, budget, marks, rules, |questions| questions.one())
}

/// Lists all minimal safe inductive sets.
pub fn list(file: &[u8], budget: u32, lent: &mut [u8], rules: Rules) -> Report {
    let problem = match read(file, rules) {
        Ok(problem) => problem,
        Err(refusal) => return refused(refusal),
    };
    let mut questions = Questions::new(&problem, budget, rules);
    let mut rows = Rows { lent, written: 0 };
    let number = match questions.listing(&mut rows) {
        Ok(()) => 0,
        Err(stop) => number_of(stop),
    };
    let decisions = questions.count.decisions as u64;
    Report { number, decisions, rows: rows.written as u64, ..Report::default() }
}

/// A marking job: the file, the mark space, the search, the marks.
fn mark(
    file: &[u8],
    budget: u32,
    marks: &mut [u8],
    rules: Rules,
    pick: impl Fn(&mut Questions) -> Result<Set, Stop>,
) -> Report {
    let space_late = rules.breaks(Rules::SpaceAfterSearch);
    let accepted = accept(file, marks.len(), rules);
    let problem = match accepted {
        Ok(problem) => problem,
        Err(refusal) => return refused(refusal),
    };
    let mut questions = Questions::new(&problem, budget, rules);
    let picked = pick(&mut questions);
    let decisions = questions.count.decisions as u64;
    match picked {
        Err(stop) => Report { number: number_of(stop), decisions, ..Report::default() },
        Ok(_) if space_late && marks.len() < problem.k() => refused(SHORT),
        Ok(set) => {
            write_marks(&set, marks);
            Report { decisions, ..Report::default() }
        }
    }
}

const SHORT: Refusal = Refusal { number: 9, place: 0 };

/// Reads the file of a marking job, and then tests its mark space.
fn accept(file: &[u8], space: usize, rules: Rules) -> Result<Problem, Refusal> {
    let problem = read(file, rules)?;
    if space < problem.k() && !rules.breaks(Rules::SpaceAfterSearch) {
        return Err(SHORT);
    }
    if rules.breaks(Rules::SpaceBeforeLaterBytes) {
        return read(file, Rules::TRUE);
    }
    Ok(problem)
}

fn refused(refusal: Refusal) -> Report {
    Report { number: refusal.number as u64, place: refusal.place as u64, ..Report::default() }
}

fn number_of(stop: Stop) -> u64 {
    match stop {
        Stop::Spent => 10,
        Stop::NotSafe => 11,
        Stop::NoRoom => 12,
    }
}
