//! The jobs over a circuit text and a lemma text: the problem they give is handed to the jobs over files. One more job
//! writes that problem's file.

use crate::circuit_problem::read;
use crate::file::{Problem, Refusal};
use crate::jobs::{self, Job, Report};
use crate::mutants::Rules;

#[derive(Clone, Copy, PartialEq, Eq, Debug)]
pub enum CircuitJob {
    Check,
    Largest,
    One,
    List,
    Problem,
}

impl CircuitJob {
    pub const ALL: [CircuitJob; 5] =
        [CircuitJob::Check, CircuitJob::Largest, CircuitJob::One, CircuitJob::List, CircuitJob::Problem];

    pub fn name(self) -> &'static str {
        self.over_a_file().map_or("problem", Job::name)
    }

    /// The same job over a file, if there is one.
    fn over_a_file(self) -> Option<Job> {
        match self {
            CircuitJob::Check => Some(Job::Check),
            CircuitJob::Largest => Some(Job::Largest),
            CircuitJob::One => Some(Job::One),
            CircuitJob::List => Some(Job::List),
            CircuitJob::Problem => None,
        }
    }

    fn marks(self) -> bool {
        matches!(self, CircuitJob::Largest | CircuitJob::One)
    }
}

/// Does one job. On 13, 14 and 15 nothing is written.
pub fn call(job: CircuitJob, texts: [&[u8]; 2], budget: u32, lent: &mut [u8], rules: Rules) -> Report {
    let [circuit, lemmas] = texts;
    let problem = match read(circuit, lemmas, rules) {
        Ok(problem) => problem,
        Err(refusal) => return refused(job, refusal, lemmas, lent, rules),
    };
    match job.over_a_file() {
        Some(job) => jobs::call(job, &problem.to_bytes(), budget, lent, rules),
        None => write_problem(&problem, lent),
    }
}

/// Writes the problem's file into the first lent bytes and gives its length, n, m and k; 12 where it does not fit.
fn write_problem(problem: &Problem, lent: &mut [u8]) -> Report {
    let file = problem.to_bytes();
    match lent.get_mut(..file.len()) {
        None => Report { number: 12, ..Report::default() },
        Some(space) => {
            space.copy_from_slice(&file);
            let (n, m, k) = (problem.n as u64, problem.m as u64, problem.k() as u64);
            Report { rows: file.len() as u64, n, m, k, ..Report::default() }
        }
    }
}

fn refused(job: CircuitJob, refusal: Refusal, lemmas: &[u8], lent: &mut [u8], rules: Rules) -> Report {
    let lines = lemmas.iter().filter(|&&byte| byte == b'\n').count();
    let short = job.marks() && lent.len() < lines;
    let space_first = match refusal.number {
        14 => rules.breaks(Rules::SpaceBeforeLimits),
        15 => rules.breaks(Rules::SpaceBeforeJustice),
        _ => false,
    };
    if space_first && short {
        return Report { number: 9, ..Report::default() };
    }
    if rules.breaks(Rules::RefusalClearsMarks) {
        lent.fill(0);
    }
    Report { number: refusal.number as u64, place: refusal.place as u64, ..Report::default() }
}
