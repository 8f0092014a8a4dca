//! A text line by line. Each line ends with a newline byte; one that is missing starts where the text ends.

use crate::file::Refusal;
use crate::mutants::Rules;

/// The place of the next line in a text, and of the line before it.
pub struct Lines<'a> {
    pub text: &'a [u8],
    pub place: usize,
    before: usize,
    rules: Rules,
}

/// Refusal 13 at a line.
pub fn at_fault(place: usize) -> Refusal {
    Refusal { number: 13, place }
}

impl<'a> Lines<'a> {
    pub fn new(text: &'a [u8], place: usize, rules: Rules) -> Lines<'a> {
        Lines { text, place, before: 0, rules }
    }

    pub fn ended(&self) -> bool {
        self.place == self.text.len()
    }

    /// The place of the next line and the line without its newline; at fault if it is missing or has no newline.
    pub fn take(&mut self) -> Result<(usize, &'a [u8]), Refusal> {
        let (text, place) = (self.text, self.place);
        if self.ended() {
            let early = self.rules.breaks(Rules::MissingAtTheLineBefore);
            return Err(at_fault(if early { self.before } else { place }));
        }
        let rest = &text[place..];
        self.before = place;
        match rest.iter().position(|&byte| byte == b'\n') {
            Some(length) => {
                self.place = place + length + 1;
                Ok((place, &rest[..length]))
            }
            None if self.rules.breaks(Rules::LastNewlineLeftOut) => {
                self.place = text.len();
                Ok((place, rest))
            }
            None => Err(at_fault(place)),
        }
    }
}
