//! A call of a job over circuits, and what such calls are made to.

use crate::circuit_jobs::{call, CircuitJob};
use crate::circuit_problem::read;
use crate::file::Problem;
use crate::jobs::Report;
use crate::mutants::Rules;
use crate::subject::{hex, Outcome, Second, Subject};
use std::fmt;

/// Something that does the jobs over circuits too.
pub trait CircuitSubject: Subject {
    fn circuit_call(&self, job: CircuitJob, texts: [&[u8]; 2], budget: u32, lent: &mut [u8]) -> Report;
}

impl CircuitSubject for Second {
    fn circuit_call(&self, job: CircuitJob, texts: [&[u8]; 2], budget: u32, lent: &mut [u8]) -> Report {
        call(job, texts, budget, lent, self.0)
    }
}

/// One call: a job, a circuit text, a lemma text, a budget and the length of the lent space.
#[derive(Clone, PartialEq, Eq, Debug)]
pub struct CircuitCall {
    pub job: CircuitJob,
    pub circuit: Vec<u8>,
    pub lemmas: Vec<u8>,
    pub budget: u32,
    pub space: usize,
}

impl CircuitCall {
    pub fn outcome(&self, subject: &dyn CircuitSubject) -> Outcome {
        let texts = [&self.circuit[..], &self.lemmas[..]];
        Outcome::of(self.space, |lent| subject.circuit_call(self.job, texts, self.budget, lent))
    }

    /// Whether two subjects differ in this call.
    pub fn differs(&self, one: &dyn CircuitSubject, other: &dyn CircuitSubject) -> bool {
        self.outcome(one) != self.outcome(other)
    }

    /// The problem that the texts give, if they are read.
    pub fn problem(&self) -> Option<Problem> {
        read(&self.circuit, &self.lemmas, Rules::TRUE).ok()
    }
}

impl fmt::Display for CircuitCall {
    fn fmt(&self, out: &mut fmt::Formatter) -> fmt::Result {
        let CircuitCall { job, circuit, lemmas, budget, space } = self;
        writeln!(out, "job {} over a circuit, budget {budget}, space {space}", job.name())?;
        if let Some(problem) = self.problem() {
            writeln!(out, "{problem}")?;
        }
        for (name, text) in [("circuit", circuit), ("lemmas", lemmas)] {
            writeln!(out, "{name}: \"{}\"", text[..text.len().min(400)].escape_ascii())?;
        }
        write!(out, "{} bytes: {} and {}", circuit.len() + lemmas.len(), hex(circuit), hex(lemmas))
    }
}
