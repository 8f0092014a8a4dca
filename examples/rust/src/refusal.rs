//! A refusal, and plain words for each number.

use std::fmt;

/// Why a call gave no answer.
#[derive(Clone, Copy, Debug, PartialEq, Eq)]
pub struct Refusal {
    /// 1 to 15, as `include/trim.h` and the project's README.md have them.
    pub number: u32,
    /// The byte offset of what refusals 1 to 8 speak of in the file, and of the line that 13 speaks of in its text; the others
    /// have none.
    pub place: Option<usize>,
    /// The text that refusal 13 speaks of; the others have none.
    pub text: Option<Text>,
    /// The decisions counted up to the refusal; for refusal 10 the budget.
    pub decisions: u64,
}

/// One of the two texts that a job on a circuit is given.
#[derive(Clone, Copy, Debug, PartialEq, Eq)]
pub enum Text {
    /// The circuit, in ASCII AIGER of 2007 or 1.9.
    Circuit,
    /// The lemmas, one a line.
    Lemmas,
}

impl Refusal {
    /// The refusal's meaning in plain words.
    pub fn words(&self) -> &'static str {
        match self.number {
            1 => "the file has more than 65,536 bytes",
            2 => "a record is cut short",
            3 => "a record's kind is out of place",
            4 => "a record's length is not allowed for its kind",
            5 => "n or m is out of range",
            6 => "a literal is 0, or names a variable that its kind of clause may not",
            7 => "there are more than 4,096 clauses or 128 lemmas",
            8 => "bytes follow the end record",
            9 => "fewer bytes were lent for marks than there are lemmas",
            10 => "the budget of decisions is used up; a larger one may do",
            11 => "no subset of these candidates is safe and inductive, which does not say that the loader is unsafe",
            12 => "a row was found, or a problem file written, that does not fit the lent space",
            13 => "a line is not as the text's format says",
            14 => "the circuit or its lemmas are over a limit, or there is no latch, or not just one output or bad literal",
            15 => "the circuit has justice or fairness, which are not read",
            _ => "this number is not known here",
        }
    }
}

impl fmt::Display for Refusal {
    fn fmt(&self, f: &mut fmt::Formatter<'_>) -> fmt::Result {
        write!(f, "refusal {}", self.number)?;
        if let Some(place) = self.place {
            write!(f, " at byte {place}")?;
        }
        match self.text {
            Some(Text::Circuit) => write!(f, " of the circuit")?,
            Some(Text::Lemmas) => write!(f, " of the lemmas")?,
            None => (),
        }
        write!(f, ": {}", self.words())
    }
}

impl std::error::Error for Refusal {}

#[cfg(test)]
mod tests {
    use super::*;
    use std::collections::HashSet;

    fn words(number: u32) -> &'static str {
        Refusal { number, place: None, text: None, decisions: 0 }.words()
    }

    #[test]
    fn every_number_has_words_of_its_own() {
        let all: HashSet<_> = (1..=15).map(words).collect();
        assert_eq!(all.len(), 15);
        assert!(!all.contains(words(16)));
    }

    #[test]
    fn a_place_is_said_where_there_is_one() {
        let cut = Refusal { number: 2, place: Some(42), text: None, decisions: 0 };
        assert_eq!(cut.to_string(), "refusal 2 at byte 42: a record is cut short");
        let full = Refusal { number: 12, place: None, text: None, decisions: 3 };
        assert_eq!(full.to_string(), "refusal 12: a row was found, or a problem file written, that does not fit the lent space");
    }

    #[test]
    fn a_line_at_fault_is_said_with_its_text() {
        let circuit = Refusal { number: 13, place: Some(14), text: Some(Text::Circuit), decisions: 0 };
        assert_eq!(
            circuit.to_string(),
            "refusal 13 at byte 14 of the circuit: a line is not as the text's format says"
        );
        let lemmas = Refusal { text: Some(Text::Lemmas), ..circuit };
        assert_eq!(lemmas.to_string(), "refusal 13 at byte 14 of the lemmas: a line is not as the text's format says");
    }
}
