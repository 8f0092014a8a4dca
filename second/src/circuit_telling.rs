//! For each mutant of the rules of circuits a stored pair of texts and a call with it that tells the mutant apart.

use crate::circuit_accepted::{older_accepted, Accepted};
use crate::circuit_accepted_newer::newer_accepted;
use crate::circuit_call::CircuitCall;
use crate::circuit_faults::line_faults;
use crate::circuit_faults_late::late_refusals;
use crate::circuit_faults_newer::newer_faults;
use crate::circuit_jobs::CircuitJob;
use crate::circuit_mutants::CIRCUIT_MUTANTS;
use crate::circuit_mutants_newer::NEWER_MUTANTS;
use crate::circuit_refused_newer::newer_refusals;
use crate::circuit_sample::Sample;
use crate::mutants::Rules;
use crate::subject::Second;
use crate::telling::answer_line;

/// A call that tells a mutant, and the name of the stored pair it is made with.
pub struct CircuitTelling {
    pub mutant: Rules,
    pub path: String,
    pub call: CircuitCall,
}

/// The pairs of edition 2007 that are refused.
pub fn older_refused() -> Vec<Sample> {
    line_faults().into_iter().chain(late_refusals()).collect()
}

/// The pairs of edition 1.9 that are refused.
pub fn newer_refused() -> Vec<Sample> {
    newer_faults().into_iter().chain(newer_refusals()).collect()
}

/// One for each mutant: the first stored pair that tells it, short ones first, those of edition 2007 before others, and
/// pairs that are read before those that are refused.
pub fn circuit_tellings() -> Vec<CircuitTelling> {
    let mut calls = stored_calls();
    calls.sort_by_key(|(_, call)| call.circuit.len() + call.lemmas.len() > 1_000);
    let tell = |&(mutant, _): &(Rules, &str)| {
        let told = calls.iter().find(|(_, call)| call.differs(&Second(Rules::TRUE), &Second(mutant)));
        let (path, call) = told.unwrap_or_else(|| panic!("no stored pair tells {}", mutant.name())).clone();
        CircuitTelling { mutant, path, call }
    };
    CIRCUIT_MUTANTS.iter().chain(NEWER_MUTANTS).map(tell).collect()
}

/// A few calls with every stored pair: refused pairs are checked, the others written as a file, and all marked with no
/// space.
fn stored_calls() -> Vec<(String, CircuitCall)> {
    let refused = |samples: Vec<Sample>| samples.into_iter().map(|sample| ("refusals", sample));
    let read = |pairs: Vec<Accepted>| pairs.into_iter().map(|accepted| ("read", accepted.sample));
    let older = read(older_accepted()).chain(refused(older_refused()));
    let newer = read(newer_accepted()).chain(refused(newer_refused()));
    let mut calls = Vec::new();
    for (folder, sample) in older.chain(newer) {
        let Sample { name, circuit, lemmas, .. } = sample;
        let call = CircuitCall { job: CircuitJob::Check, circuit, lemmas, budget: 0, space: 0 };
        let file = call.problem().map_or(0, |problem| problem.to_bytes().len());
        let path = format!("circuits/{folder}/{name}");
        calls.push((path.clone(), call.clone()));
        calls.push((path.clone(), CircuitCall { job: CircuitJob::Problem, space: file, ..call.clone() }));
        calls.push((path, CircuitCall { job: CircuitJob::Largest, space: 2, ..call }));
    }
    calls
}

impl CircuitTelling {
    /// The line of the index: mutant, pair, job, budget, space, and the answer of the true rules.
    pub fn line(&self) -> String {
        let CircuitCall { job, budget, space, .. } = self.call;
        let answer = answer_line(&self.call.outcome(&Second(Rules::TRUE)));
        format!("{} {} {} {budget} {space} {answer}\n", self.mutant.name(), self.path, job.name())
    }
}

pub const CIRCUIT_INDEX_HEAD: &str = "\
# One line for each mutant of the rules of circuits: its name, a stored pair (PAIR.aag and PAIR.lemmas; where there is
# no lemma file the lemma text is empty), and a call of a job with that pair that tells the mutant apart:
# mutant pair job budget space, then the answer of the true rules:
# number place decisions rows n m k lent-bytes-afterwards (A0 B1 .. patterns are bytes left untouched).
";
