//! The C interface of the proved library, and the only unsafe code of this crate.
//!
//! `include/trim.h` asks these duties of a caller, and the five calls below meet them in the same way:
//!
//! - `file`, `circuit` and `lemmas` point to as many readable bytes as is said, `marks`, `rows` or the `file` that is written
//!   to so many writable ones, and none is null even where the length is 0: pointer and length are those of one slice, whose
//!   pointer is never null, not even an empty one's.
//! - `report` points to seven words: it is an array of seven, which the calling function owns.
//! - no two of them overlap: nothing else reaches what a `&mut [u8]` borrows, and the array is new.
//!
//! The library keeps no pointer after its call and asks nothing of the bytes, so any slices will do.

use crate::{Refusal, Text};

type Words = [u64; 7];
type Job = unsafe extern "C" fn(*const u8, usize, u32, *mut u8, usize, *mut Words) -> u32;
type CircuitJob = unsafe extern "C" fn(*const u8, usize, *const u8, usize, u32, *mut u8, usize, *mut Words) -> u32;

extern "C" {
    fn trim_check(file: *const u8, len: usize, report: *mut Words) -> u32;
    fn trim_largest(file: *const u8, len: usize, budget: u32, marks: *mut u8, room: usize, report: *mut Words) -> u32;
    fn trim_one(file: *const u8, len: usize, budget: u32, marks: *mut u8, room: usize, report: *mut Words) -> u32;
    fn trim_list(file: *const u8, len: usize, budget: u32, rows: *mut u8, room: usize, report: *mut Words) -> u32;

    fn trim_circuit_check(
        circuit: *const u8,
        circuit_len: usize,
        lemmas: *const u8,
        lemmas_len: usize,
        report: *mut Words,
    ) -> u32;
    fn trim_circuit_largest(
        circuit: *const u8,
        circuit_len: usize,
        lemmas: *const u8,
        lemmas_len: usize,
        budget: u32,
        marks: *mut u8,
        room: usize,
        report: *mut Words,
    ) -> u32;
    fn trim_circuit_one(
        circuit: *const u8,
        circuit_len: usize,
        lemmas: *const u8,
        lemmas_len: usize,
        budget: u32,
        marks: *mut u8,
        room: usize,
        report: *mut Words,
    ) -> u32;
    fn trim_circuit_list(
        circuit: *const u8,
        circuit_len: usize,
        lemmas: *const u8,
        lemmas_len: usize,
        budget: u32,
        rows: *mut u8,
        room: usize,
        report: *mut Words,
    ) -> u32;
    fn trim_circuit_problem(
        circuit: *const u8,
        circuit_len: usize,
        lemmas: *const u8,
        lemmas_len: usize,
        file: *mut u8,
        room: usize,
        report: *mut Words,
    ) -> u32;
}

/// A circuit and its lemmas, both as text.
#[derive(Clone, Copy)]
pub(crate) struct Texts<'a> {
    pub circuit: &'a [u8],
    pub lemmas: &'a [u8],
}

/// What a call reports, in the order of the seven words; what is not given for an answer is 0.
#[derive(Clone, Copy, Debug, PartialEq, Eq)]
pub(crate) struct Report {
    pub number: u32,
    pub place: usize,
    pub decisions: u64,
    pub rows: usize,
    pub n: usize,
    pub m: usize,
    pub k: usize,
}

impl Report {
    /// The report as an error.
    pub fn refusal(self) -> Refusal {
        let has_place = (1..=8).contains(&self.number) || self.number == 13;
        let place = has_place.then_some(self.place);
        Refusal { number: self.number, place, text: None, decisions: self.decisions }
    }

    /// The report on two texts as an error. Number 13 does not say which text it speaks of: the circuit's, if the circuit is
    /// refused by 13 beside an empty lemma text too.
    pub fn refusal_of(self, texts: Texts) -> Refusal {
        let text = (self.number == 13).then(|| {
            let alone = circuit_check(Texts { lemmas: &[], ..texts });
            if alone.number == 13 {
                return Text::Circuit;
            }
            Text::Lemmas
        });
        Refusal { text, ..self.refusal() }
    }

    /// The report of an answer, or its refusal.
    pub fn answer(self) -> Result<Report, Refusal> {
        if self.number == 0 {
            return Ok(self);
        }
        Err(self.refusal())
    }

    /// The report of an answer on two texts, or its refusal.
    pub fn answer_of(self, texts: Texts) -> Result<Report, Refusal> {
        if self.number == 0 {
            return Ok(self);
        }
        Err(self.refusal_of(texts))
    }
}

/// Checks a file.
pub(crate) fn check(file: &[u8]) -> Report {
    let mut words = [0; 7];
    // SAFETY: the file's pointer goes with its length, and `words` is seven words of this function alone.
    let number = unsafe { trim_check(file.as_ptr(), file.len(), &mut words) };
    report(number, words)
}

/// Marks the largest inductive subset in the lent bytes.
pub(crate) fn largest(file: &[u8], budget: u32, marks: &mut [u8]) -> Report {
    call(trim_largest, file, budget, marks)
}

/// Marks one minimal safe inductive subset in the lent bytes.
pub(crate) fn one(file: &[u8], budget: u32, marks: &mut [u8]) -> Report {
    call(trim_one, file, budget, marks)
}

/// Lists all minimal safe inductive subsets into the lent bytes.
pub(crate) fn list(file: &[u8], budget: u32, rows: &mut [u8]) -> Report {
    call(trim_list, file, budget, rows)
}

/// Does one of the three jobs that write into lent bytes. It is private: no other function is ever passed as `job`.
fn call(job: Job, file: &[u8], budget: u32, lent: &mut [u8]) -> Report {
    let mut words = [0; 7];
    // SAFETY: each pointer goes with the length of its own slice, `lent` is borrowed by this call alone and so does not meet
    // `file`, and `words` is seven words of this function alone.
    let number = unsafe { job(file.as_ptr(), file.len(), budget, lent.as_mut_ptr(), lent.len(), &mut words) };
    report(number, words)
}

/// Checks a circuit and its lemmas.
pub(crate) fn circuit_check(texts: Texts) -> Report {
    let Texts { circuit, lemmas } = texts;
    let mut words = [0; 7];
    // SAFETY: each text's pointer goes with its length, and `words` is seven words of this function alone.
    let number =
        unsafe { trim_circuit_check(circuit.as_ptr(), circuit.len(), lemmas.as_ptr(), lemmas.len(), &mut words) };
    report(number, words)
}

/// Marks the largest inductive subset in the lent bytes.
pub(crate) fn circuit_largest(texts: Texts, budget: u32, marks: &mut [u8]) -> Report {
    circuit_call(trim_circuit_largest, texts, budget, marks)
}

/// Marks one minimal safe inductive subset in the lent bytes.
pub(crate) fn circuit_one(texts: Texts, budget: u32, marks: &mut [u8]) -> Report {
    circuit_call(trim_circuit_one, texts, budget, marks)
}

/// Lists all minimal safe inductive subsets into the lent bytes.
pub(crate) fn circuit_list(texts: Texts, budget: u32, rows: &mut [u8]) -> Report {
    circuit_call(trim_circuit_list, texts, budget, rows)
}

/// Writes the problem file into the first of the lent bytes.
pub(crate) fn circuit_problem(texts: Texts, file: &mut [u8]) -> Report {
    let Texts { circuit, lemmas } = texts;
    let mut words = [0; 7];
    // SAFETY: each pointer goes with the length of its own slice, `file` is borrowed by this call alone and so meets neither
    // text, and `words` is seven words of this function alone.
    let number = unsafe {
        trim_circuit_problem(
            circuit.as_ptr(),
            circuit.len(),
            lemmas.as_ptr(),
            lemmas.len(),
            file.as_mut_ptr(),
            file.len(),
            &mut words,
        )
    };
    report(number, words)
}

/// Does one of the three jobs on two texts that write into lent bytes. It is private, as [`call`] is.
fn circuit_call(job: CircuitJob, texts: Texts, budget: u32, lent: &mut [u8]) -> Report {
    let Texts { circuit, lemmas } = texts;
    let mut words = [0; 7];
    // SAFETY: each pointer goes with the length of its own slice, `lent` is borrowed by this call alone and so meets neither
    // text, and `words` is seven words of this function alone.
    let number = unsafe {
        job(
            circuit.as_ptr(),
            circuit.len(),
            lemmas.as_ptr(),
            lemmas.len(),
            budget,
            lent.as_mut_ptr(),
            lent.len(),
            &mut words,
        )
    };
    report(number, words)
}

fn report(number: u32, words: Words) -> Report {
    let [again, place, decisions, rows, n, m, k] = words;
    debug_assert_eq!(u64::from(number), again);
    let [place, rows, n, m, k] = [place, rows, n, m, k].map(|word| word as usize);
    Report { number, place, decisions, rows, n, m, k }
}
