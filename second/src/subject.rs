//! What is compared: anything that does the four jobs, and a call to it with all that can be seen afterwards.

use crate::file::{read, Problem};
use crate::jobs::{call, Job, Report};
use crate::mutants::Rules;
use std::fmt;

/// Something that does the four jobs.
pub trait Subject {
    fn name(&self) -> String;
    fn call(&self, job: Job, file: &[u8], budget: u32, lent: &mut [u8]) -> Report;
}

/// This program, by the true rules or as a mutant.
pub struct Second(pub Rules);

impl Subject for Second {
    fn name(&self) -> String {
        match self.0 {
            Rules::True => "the second program".to_string(),
            mutant => format!("the mutant {}", mutant.name()),
        }
    }

    fn call(&self, job: Job, file: &[u8], budget: u32, lent: &mut [u8]) -> Report {
        call(job, file, budget, lent, self.0)
    }
}

/// One call: a job, a file, a budget and the length of the lent space.
#[derive(Clone, PartialEq, Eq, Debug)]
pub struct Call {
    pub job: Job,
    pub file: Vec<u8>,
    pub budget: u32,
    pub space: usize,
}

/// All that can be seen after a call: the report, the lent bytes and some bytes around them.
#[derive(Clone, PartialEq, Eq, Debug)]
pub struct Outcome {
    pub report: Report,
    pub bytes: Vec<u8>,
}

const AROUND: usize = 16;

impl Outcome {
    /// Makes a call with so many lent bytes.
    pub fn of(space: usize, call: impl FnOnce(&mut [u8]) -> Report) -> Outcome {
        let mut bytes: Vec<u8> = (0..space + 2 * AROUND).map(pattern).collect();
        let report = call(&mut bytes[AROUND..AROUND + space]);
        Outcome { report, bytes }
    }

    /// The lent bytes.
    pub fn lent(&self) -> &[u8] {
        &self.bytes[AROUND..self.bytes.len() - AROUND]
    }
}

/// The bytes a space holds before a call: never a mark, and not the same at neighbouring places.
pub fn pattern(place: usize) -> u8 {
    0x80 | (place * 29 + 7) as u8
}

impl Call {
    pub fn outcome(&self, subject: &dyn Subject) -> Outcome {
        Outcome::of(self.space, |lent| subject.call(self.job, &self.file, self.budget, lent))
    }

    /// Whether two subjects differ in this call.
    pub fn differs(&self, one: &dyn Subject, other: &dyn Subject) -> bool {
        self.outcome(one) != self.outcome(other)
    }

    /// The problem in the file, if the file is accepted.
    pub fn problem(&self) -> Option<Problem> {
        read(&self.file, Rules::TRUE).ok()
    }
}

/// Bytes in two hexadecimal digits each, the first few hundred of them.
pub fn hex(bytes: &[u8]) -> String {
    let shown: Vec<String> = bytes.iter().take(400).map(|byte| format!("{byte:02X}")).collect();
    let more = if bytes.len() > shown.len() { " .." } else { "" };
    shown.join(" ") + more
}

impl fmt::Display for Call {
    fn fmt(&self, out: &mut fmt::Formatter) -> fmt::Result {
        let Call { job, file, budget, space } = self;
        writeln!(out, "job {}, budget {budget}, space {space}", job.name())?;
        if let Some(problem) = self.problem() {
            writeln!(out, "{problem}")?;
        }
        write!(out, "{} bytes: {}", file.len(), hex(file))
    }
}

impl fmt::Display for Outcome {
    fn fmt(&self, out: &mut fmt::Formatter) -> fmt::Result {
        let Report { number, place, decisions, rows, n, m, k } = self.report;
        write!(out, "number {number} place {place} decisions {decisions} rows {rows}")?;
        write!(out, " n {n} m {m} k {k}, lent bytes {}", hex(self.lent()))?;
        let untouched = |(place, &byte): (usize, &u8)| byte == pattern(place);
        let (before, after) = (AROUND, self.bytes.len() - AROUND);
        let outside = self.bytes.iter().enumerate().filter(|&(place, _)| place < before || place >= after);
        if !outside.into_iter().all(untouched) {
            write!(out, ", and bytes outside the lent space were written")?;
        }
        Ok(())
    }
}
