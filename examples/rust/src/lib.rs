//! The proved subset trimmer for Rust: its C functions as safe ones. Four jobs read a problem file, and the same four, with
//! `circuit_` before their names, a circuit in ASCII AIGER (of 2007 or 1.9) with its lemmas in a second text.
//!
//! Any bytes may be passed as the file or the texts, with any budget: what is no problem file and no circuit is refused, and
//! nothing needs to be checked before. A call keeps nothing and takes no lock, so calls may run side by side. It needs up to 1.5 MiB of stack:
//! less than the main thread has, and less than the 2 MiB of a thread that Rust spawns.
//!
//! ```
//! // One latch that keeps its value, starts true, and is bad when false; the one candidate lemma says that it is true.
//! let file = [
//!     4, 0, 1, 0, 1, 0, 0, 0, // one state variable, no input
//!     2, 0, 2, 0, 1, 0, // Init: (1)
//!     4, 0, 3, 0, 0xFE, 0xFF, 1, 0, // Tr: (-2 1)
//!     4, 0, 3, 0, 2, 0, 0xFF, 0xFF, // Tr: (2 -1)
//!     2, 0, 4, 0, 0xFF, 0xFF, // Bad: (-1)
//!     2, 0, 5, 0, 1, 0, // lemma 0: (1)
//!     0, 0, 6, 0, // end
//! ];
//! let set = trim_example::one(&file, 1_000_000)?;
//! assert_eq!(set.positions(), [0]);
//!
//! let refusal = trim_example::one(&file[..45], 1_000_000).unwrap_err();
//! assert_eq!(refusal.to_string(), "refusal 2 at byte 42: a record is cut short");
//! # Ok::<(), trim_example::Refusal>(())
//! ```
//!
//! ```
//! // One latch whose next value is itself, and which is the output: it starts at 0, and so stays there.
//! let circuit = b"aag 1 0 1 1 0\n2 2\n2\n";
//! let set = trim_example::circuit_one(circuit, b"-1 0\n", 1_000_000)?;
//! assert_eq!(set.positions(), [0]);
//!
//! // The same problem as a file, for the jobs that read one.
//! let file = trim_example::circuit_problem(circuit, b"-1 0\n")?;
//! assert_eq!(trim_example::one(&file, 1_000_000)?, set);
//!
//! let refusal = trim_example::circuit_one(circuit, b"-1 0\n-2 0\n", 1_000_000).unwrap_err();
//! assert_eq!(refusal.to_string(), "refusal 13 at byte 5 of the lemmas: a line is not as the text's format says");
//! # Ok::<(), trim_example::Refusal>(())
//! ```

#![deny(unsafe_op_in_unsafe_fn)]
#![deny(unsafe_code)]
#![deny(missing_docs)]

#[allow(unsafe_code)]
mod library;
mod refusal;

pub use refusal::{Refusal, Text};

use library::{Report, Texts};

/// No problem that is built from a circuit takes more bytes as a file.
const FILE_MOST: usize = 46_220;

/// The sizes of an accepted problem: of a file, or built from a circuit and its lemmas.
#[derive(Clone, Copy, Debug, PartialEq, Eq)]
pub struct Accepted {
    /// The state variables.
    pub n: usize,
    /// The inputs and helpers.
    pub m: usize,
    /// The candidate lemmas.
    pub k: usize,
}

/// A set of lemmas, and what it cost to find.
#[derive(Clone, Debug, PartialEq, Eq)]
pub struct Marked {
    /// For each lemma by position, whether it is in the set.
    pub marks: Vec<bool>,
    /// The decisions counted.
    pub decisions: u64,
}

impl Marked {
    /// The positions of the lemmas in the set, rising.
    pub fn positions(&self) -> Vec<usize> {
        (0..self.marks.len()).filter(|&position| self.marks[position]).collect()
    }
}

/// Minimal safe inductive sets of lemmas, and what it cost to find them.
#[derive(Clone, Debug, PartialEq, Eq)]
pub struct Listing {
    /// A row for each set, marked as [`Marked::marks`] is. Where two rows first differ, the one that has the lemma is first.
    pub rows: Vec<Vec<bool>>,
    /// The decisions counted.
    pub decisions: u64,
    /// Whether these are all rows.
    pub ended: Ended,
}

/// How a listing ended.
#[derive(Clone, Copy, Debug, PartialEq, Eq)]
pub enum Ended {
    /// Every minimal safe inductive set has its row.
    Complete,
    /// Refusal 10, the budget was used up: there may be more rows than those found.
    Spent,
    /// Refusal 12, the space was too small: there is at least one row more than those found.
    Full,
}

/// Checks a problem file, and gives its sizes.
pub fn check(file: &[u8]) -> Result<Accepted, Refusal> {
    let Report { n, m, k, .. } = library::check(file).answer()?;
    Ok(Accepted { n, m, k })
}

/// Marks the largest inductive subset of a file's lemmas, the one that contains all other inductive ones.
pub fn largest(file: &[u8], budget: u32) -> Result<Marked, Refusal> {
    marked(library::largest, file, budget)
}

/// Marks one minimal safe inductive subset of a file's lemmas: it is safe and inductive, and no proper part of it is.
pub fn one(file: &[u8], budget: u32) -> Result<Marked, Refusal> {
    marked(library::one, file, budget)
}

/// Lists the minimal safe inductive subsets of a file's lemmas, as far as the budget and `space` bytes go; a row takes a byte
/// for each lemma, and all the space is allocated. Refusals 10 and 12 keep the rows found, so they are no error here:
/// [`Listing::ended`] says them.
pub fn list(file: &[u8], budget: u32, space: usize) -> Result<Listing, Refusal> {
    let k = check(file)?.k;
    let mut bytes = vec![0; space];
    let report = library::list(file, budget, &mut bytes);
    listing(report, k, &bytes).ok_or_else(|| report.refusal())
}

/// Checks a circuit and its lemmas, and gives the sizes of the problem built from them.
pub fn circuit_check(circuit: &[u8], lemmas: &[u8]) -> Result<Accepted, Refusal> {
    let texts = Texts { circuit, lemmas };
    let Report { n, m, k, .. } = library::circuit_check(texts).answer_of(texts)?;
    Ok(Accepted { n, m, k })
}

/// Marks the largest inductive subset of a circuit's lemmas, as [`largest`] does.
pub fn circuit_largest(circuit: &[u8], lemmas: &[u8], budget: u32) -> Result<Marked, Refusal> {
    circuit_marked(library::circuit_largest, Texts { circuit, lemmas }, budget)
}

/// Marks one minimal safe inductive subset of a circuit's lemmas, as [`one`] does.
pub fn circuit_one(circuit: &[u8], lemmas: &[u8], budget: u32) -> Result<Marked, Refusal> {
    circuit_marked(library::circuit_one, Texts { circuit, lemmas }, budget)
}

/// Lists the minimal safe inductive subsets of a circuit's lemmas, as [`list`] does.
pub fn circuit_list(circuit: &[u8], lemmas: &[u8], budget: u32, space: usize) -> Result<Listing, Refusal> {
    let texts = Texts { circuit, lemmas };
    let k = circuit_check(circuit, lemmas)?.k;
    let mut bytes = vec![0; space];
    let report = library::circuit_list(texts, budget, &mut bytes);
    listing(report, k, &bytes).ok_or_else(|| report.refusal_of(texts))
}

/// Gives the file of the problem that is built from a circuit and its lemmas. Every job answers of that file as it does of
/// the two texts.
pub fn circuit_problem(circuit: &[u8], lemmas: &[u8]) -> Result<Vec<u8>, Refusal> {
    let texts = Texts { circuit, lemmas };
    let mut file = vec![0; FILE_MOST];
    let report = library::circuit_problem(texts, &mut file).answer_of(texts)?;
    file.truncate(report.rows);
    Ok(file)
}

/// Lends as many bytes as there are lemmas to one of the two marking jobs, so that refusal 9 never comes.
fn marked(job: fn(&[u8], u32, &mut [u8]) -> Report, file: &[u8], budget: u32) -> Result<Marked, Refusal> {
    let mut marks = vec![0; check(file)?.k];
    let report = job(file, budget, &mut marks).answer()?;
    Ok(Marked { marks: truths(&marks), decisions: report.decisions })
}

/// The same for the two marking jobs on circuits.
fn circuit_marked(job: fn(Texts, u32, &mut [u8]) -> Report, texts: Texts, budget: u32) -> Result<Marked, Refusal> {
    let mut marks = vec![0; circuit_check(texts.circuit, texts.lemmas)?.k];
    let report = job(texts, budget, &mut marks).answer_of(texts)?;
    Ok(Marked { marks: truths(&marks), decisions: report.decisions })
}

/// What a listing of rows of k bytes comes to; none if it was refused before it began.
fn listing(report: Report, k: usize, bytes: &[u8]) -> Option<Listing> {
    let ended = match report.number {
        0 => Ended::Complete,
        10 => Ended::Spent,
        12 => Ended::Full,
        _ => return None,
    };
    let rows = (0..report.rows).map(|row| truths(&bytes[row * k..(row + 1) * k])).collect();
    Some(Listing { rows, decisions: report.decisions, ended })
}

fn truths(marks: &[u8]) -> Vec<bool> {
    marks.iter().map(|&mark| mark == 1).collect()
}

#[cfg(test)]
mod tests {
    //! What the safe functions do not show: the lent bytes that a call leaves as they were.

    use super::*;

    const B: &[u8] = include_bytes!("../../../cases/B.problem");

    #[test]
    fn a_row_that_does_not_fit_leaves_its_bytes() {
        let mut bytes = [7; 5];
        let report = library::list(B, 1_000_000, &mut bytes);
        assert_eq!((report.number, report.rows, report.decisions), (12, 1, 3));
        assert_eq!(bytes, [1, 0, 0, 7, 7]);
    }

    #[test]
    fn bytes_after_the_marks_stay() {
        let mut bytes = [7; 6];
        assert_eq!(library::one(B, 1_000_000, &mut bytes).number, 0);
        assert_eq!(bytes, [0, 1, 1, 7, 7, 7]);
    }

    #[test]
    fn too_few_bytes_for_marks_are_refused_and_left() {
        let mut bytes = [7; 2];
        let refusal = library::one(B, 1_000_000, &mut bytes).refusal();
        assert_eq!(refusal, Refusal { number: 9, place: None, text: None, decisions: 0 });
        assert_eq!(bytes, [7, 7]);
    }

    #[test]
    fn a_problem_file_is_written_whole_or_not_at_all() {
        let texts = Texts { circuit: b"aag 1 0 1 1 0\n2 2\n2\n", lemmas: b"-1 0\n" };
        let mut bytes = [7; 47];
        let report = library::circuit_problem(texts, &mut bytes);
        assert_eq!((report.number, report.rows, report.n, report.m, report.k), (0, 46, 1, 0, 1));
        assert_eq!((bytes[45], bytes[46]), (0, 7));
        let mut short = [7; 45];
        assert_eq!(library::circuit_problem(texts, &mut short).number, 12);
        assert_eq!(short, [7; 45]);
    }

    #[test]
    fn a_text_at_fault_leaves_the_lent_bytes() {
        let mut bytes = [7; 3];
        assert_eq!(library::circuit_one(Texts { circuit: b"aag", lemmas: b"" }, 9, &mut bytes).number, 13);
        assert_eq!(library::circuit_list(Texts { circuit: b"aag 0 0 0 0 0\n", lemmas: b"" }, 9, &mut bytes).number, 14);
        assert_eq!(bytes, [7; 3]);
    }

    #[test]
    fn only_a_check_reports_sizes() {
        let sizes = |report: Report| (report.n, report.m, report.k);
        assert_eq!(sizes(library::check(B)), (3, 0, 3));
        assert_eq!(sizes(library::largest(B, 0, &mut [0; 3])), (0, 0, 0));
    }
}
