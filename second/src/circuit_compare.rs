//! The comparison over circuits: the same calls to two subjects, with texts of every kind.

use crate::circuit_call::{CircuitCall, CircuitSubject};
use crate::circuit_jobs::CircuitJob;
use crate::circuit_shrink::shrink_circuit;
use crate::circuit_sorts::{sorts, Sort};
use crate::circuit_source::{sources, stored_sources, CircuitSource, Edition, Kind};
use crate::circuit_text::{definitions, header_alone, CircuitText};
use crate::mutants::Rules;
use crate::random::Random;
use crate::subject::Second;
use std::fmt;

/// The stored pairs come when so many turns have been taken.
const STORED_TURN: usize = 200;

/// What a comparison found: the calls made, those of them with a header of edition 1.9, how often each number was the
/// answer, the calls with texts of each kind, for each job those that got past the texts, the calls of each sort of
/// edition 1.9, and the first difference made small.
pub struct CircuitFound {
    pub edition: Edition,
    pub calls: usize,
    pub newer: usize,
    pub numbers: [usize; 16],
    pub kinds: [usize; Kind::NAMES.len()],
    pub read: [usize; CircuitJob::ALL.len()],
    pub sorts: [usize; Sort::NAMES.len()],
    pub difference: Option<String>,
}

impl CircuitFound {
    fn none(edition: Edition) -> CircuitFound {
        CircuitFound {
            edition,
            calls: 0,
            newer: 0,
            numbers: [0; 16],
            kinds: [0; Kind::NAMES.len()],
            read: [0; CircuitJob::ALL.len()],
            sorts: [0; Sort::NAMES.len()],
            difference: None,
        }
    }

    /// The calls that count: for edition 1.9 only those whose header, damaged or not, is of that edition.
    pub fn counted(&self) -> usize {
        match self.edition {
            Edition::Older => self.calls,
            Edition::Newer => self.newer,
        }
    }

    fn count(&mut self, kind: Kind, job: CircuitJob, number: u64, newer: &Newer) {
        self.calls += 1;
        self.newer += newer.header as usize;
        self.numbers[(number as usize).min(15)] += 1;
        self.kinds[kind as usize] += 1;
        self.read[job as usize] += (number < 13) as usize;
        let found = newer.text.iter().flat_map(|text| sorts(text, number));
        found.for_each(|sort| self.sorts[sort as usize] += 1);
    }
}

/// Whether a text has a header of edition 1.9 and, if it has, the text read.
struct Newer {
    header: bool,
    text: Option<CircuitText>,
}

fn newer(circuit: &[u8]) -> Newer {
    let header = header_alone(circuit).is_some_and(|header| header.newer());
    Newer { header, text: if header { definitions(circuit, Rules::TRUE).ok() } else { None } }
}

/// Makes at least so many calls that count to both subjects, or fewer if one shows a difference.
pub fn compare_circuits(
    one: &dyn CircuitSubject,
    other: &dyn CircuitSubject,
    edition: Edition,
    calls: usize,
    seed: u64,
) -> CircuitFound {
    let mut random = Random(seed);
    let mut found = CircuitFound::none(edition);
    for turn in 0.. {
        if found.counted() >= calls {
            break;
        }
        let next = if turn == STORED_TURN { stored_sources(edition) } else { sources(&mut random, edition) };
        for source in next {
            let newer = newer(&source.pair[0]);
            for call in calls_with(&source, &mut random) {
                let outcome = call.outcome(one);
                found.count(source.kind, call.job, outcome.report.number, &newer);
                if outcome != call.outcome(other) {
                    found.difference = Some(explain(call, one, other));
                    return found;
                }
            }
        }
    }
    found
}

/// The difference on small texts, with both answers.
fn explain(call: CircuitCall, one: &dyn CircuitSubject, other: &dyn CircuitSubject) -> String {
    let small = shrink_circuit(call, &|call| call.differs(one, other));
    let answers = [one, other].map(|subject| format!("{}: {}", subject.name(), small.outcome(subject)));
    format!("{small}\n{}\n{}", answers[0], answers[1])
}

/// The calls with one pair of texts: any three where it is refused, one where it is cut, else every job.
fn calls_with(source: &CircuitSource, random: &mut Random) -> Vec<CircuitCall> {
    let [circuit, lemmas] = source.pair.clone();
    let call = CircuitCall { job: CircuitJob::Check, circuit, lemmas, budget: source.cap, space: 0 };
    let few = if source.kind == Kind::Cut { 1 } else { 3 };
    match call.problem() {
        None => (0..few).map(|_| any_call(random, &call)).collect(),
        Some(_) if source.kind == Kind::Cut => vec![any_call(random, &call)],
        Some(problem) => read_calls(random, &call, problem.k(), problem.to_bytes().len()),
    }
}

fn any_call(random: &mut Random, call: &CircuitCall) -> CircuitCall {
    let job = CircuitJob::ALL[random.below(5)];
    let budget = [0, 3, call.budget][random.below(3)];
    CircuitCall { job, budget, space: random.below(12), ..call.clone() }
}

/// Every job, with budgets and spaces around what it takes.
fn read_calls(random: &mut Random, call: &CircuitCall, k: usize, file: usize) -> Vec<CircuitCall> {
    let mut calls = vec![call.clone()];
    let spaces = [file, file - 1 - random.below(file), file + random.below(9)];
    calls.extend(spaces.map(|space| CircuitCall { job: CircuitJob::Problem, space, ..call.clone() }));
    for job in [CircuitJob::Largest, CircuitJob::One, CircuitJob::List] {
        let wide = CircuitCall { job, space: 40 * k, ..call.clone() };
        let own = wide.outcome(&Second(Rules::TRUE)).report;
        let enough = if own.number == 10 { call.budget } else { u32::MAX };
        let exact = k * (own.rows as usize).max(1);
        let count = own.decisions as u32;
        let less = if count == 0 { 0 } else { random.below(count as usize) as u32 };
        let pairs =
            [(enough, exact), (count, exact + random.below(5)), (less, exact), (enough, random.below(exact + 1))];
        calls.extend(pairs.map(|(budget, space)| CircuitCall { budget, space, ..wide.clone() }));
    }
    calls
}

impl fmt::Display for CircuitFound {
    fn fmt(&self, out: &mut fmt::Formatter) -> fmt::Result {
        write!(out, "{} calls;", self.calls)?;
        for (number, times) in self.numbers.iter().enumerate().filter(|(_, &times)| times > 0) {
            write!(out, " {number}: {times}")?;
        }
        write!(out, "; texts:")?;
        for (name, times) in Kind::NAMES.iter().zip(self.kinds) {
            write!(out, " {name} {times}")?;
        }
        write!(out, "; read:")?;
        for (job, times) in CircuitJob::ALL.into_iter().zip(self.read) {
            write!(out, " {} {times}", job.name())?;
        }
        write!(out, "; edition {}", self.edition.name())?;
        if self.edition == Edition::Newer {
            write!(out, ": headers {}", self.newer)?;
            for (name, times) in Sort::NAMES.iter().zip(self.sorts) {
                write!(out, " {name} {times}")?;
            }
        }
        match &self.difference {
            None => write!(out, "\nno difference"),
            Some(difference) => write!(out, "\na difference, on this small call:\n{difference}"),
        }
    }
}
