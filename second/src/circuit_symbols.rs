//! The symbol lines of a circuit text, and the line `c` that begins its comment.

use crate::circuit_text::{within, CircuitText};
use crate::file::Refusal;
use crate::lines::{at_fault, Lines};
use crate::mutants::Rules;
use crate::number::Number;
use std::collections::HashSet;

/// The letters of symbols; those after the third are of edition 1.9.
const LETTERS: [u8; 7] = *b"ilobcjf";

/// Reads the symbol lines up to the end of the text or the line `c`.
pub fn symbols(text: &[u8], circuit: &CircuitText, rules: Rules) -> Result<(), Refusal> {
    let mut lines = Lines::new(text, circuit.symbols, rules);
    let judged = within(text) && !rules.breaks(Rules::PositionTwiceLetThrough);
    let twice_judged = judged || rules.breaks(Rules::LongPositionTwiceJudged);
    let mut named = HashSet::new();
    let mut last = 0;
    while !lines.ended() {
        let (place, line) = lines.take()?;
        if begins_comment(line, circuit, rules) {
            let more = rules.breaks(Rules::CommentsAreLines);
            return if more { whole_lines(lines) } else { Ok(()) };
        }
        let (letter, position, digits) = symbol(line, circuit, rules).ok_or(at_fault(place))?;
        let letter_told = if rules.breaks(Rules::PositionsShared) { 0 } else { letter };
        let digits_told = if rules.breaks(Rules::PositionsByDigits) { digits } else { 0 };
        let new = named.insert((letter_told, position, digits_told));
        let in_order = letter >= last || !rules.breaks(Rules::LettersInOrder);
        if (!new && twice_judged) || !in_order {
            return Err(at_fault(place));
        }
        last = letter;
    }
    Ok(())
}

fn begins_comment(line: &[u8], circuit: &CircuitText, rules: Rules) -> bool {
    match rules {
        Rules::CommentLineMaySayMore => line.first() == Some(&b'c'),
        Rules::ConstraintSymbolIsComment if circuit.header.newer() => line.first() == Some(&b'c'),
        Rules::CommentRefusedBesideConstraints => line == b"c" && circuit.header.constraints.is_zero(),
        _ => line == b"c",
    }
}

/// A symbol line: a letter, a position below its count, a space and a name. Gives which letter, the position and how
/// many digits it has.
fn symbol(line: &[u8], circuit: &CircuitText, rules: Rules) -> Option<(usize, Number, usize)> {
    let (first, rest) = line.split_first()?;
    let letter = LETTERS.iter().position(|letter| letter == first)?;
    let below = below(*first, circuit, rules)?;
    let space = rest.iter().position(|&byte| byte == b' ')?;
    let (digits, name) = (&rest[..space], &rest[space + 1..]);
    let position = Number::read(digits, rules)?;
    let in_range = position < below || rules.breaks(Rules::PositionPastRange);
    let has_name = !name.is_empty() || rules.breaks(Rules::NameOfNoBytes);
    (in_range && has_name).then_some((letter, position, digits.len()))
}

/// What a position is below, by its letter; nothing for a letter that a text of this edition does not have.
fn below(letter: u8, circuit: &CircuitText, rules: Rules) -> Option<Number> {
    let header = &circuit.header;
    let count = match letter {
        b'i' => &header.inputs,
        b'l' => &header.latches,
        b'o' => &header.outputs,
        _ if !header.newer() || rules.breaks(Rules::NewerSymbolsRefused) => return None,
        b'b' if rules.breaks(Rules::BadSymbolsByOutputs) => &header.outputs,
        b'b' => &header.bad,
        b'c' if rules.breaks(Rules::ConstraintSymbolsRefused) => return None,
        b'c' => &header.constraints,
        b'j' if rules.breaks(Rules::JusticeSymbolsByLiterals) => return Some(Number::of(circuit.justice.len() as u64)),
        b'j' => &header.justice,
        _ => &header.fairness,
    };
    Some(count.clone())
}

/// Only a mutant reads lines after the line `c`.
fn whole_lines(mut lines: Lines) -> Result<(), Refusal> {
    while !lines.ended() {
        lines.take()?;
    }
    Ok(())
}
