//! The lemma text: one lemma a line, signed latch numbers from 1 to L, closed by 0.

use crate::file::Refusal;
use crate::lines::{at_fault, Lines};
use crate::mutants::Rules;
use crate::number::{words, Number};

/// A lemma as its line has it: latch numbers, negative for a negated latch.
pub type Lemma = Vec<i64>;

/// Reads a lemma text beside a circuit of so many latches.
pub fn read(text: &[u8], latches: &Number, rules: Rules) -> Result<Vec<Lemma>, Refusal> {
    let mut lines = Lines::new(text, 0, rules);
    let mut lemmas = Vec::new();
    while !lines.ended() {
        let (place, line) = lines.take()?;
        if line.is_empty() && rules.breaks(Rules::EmptyLineLetThrough) {
            continue;
        }
        lemmas.push(lemma(line, latches, rules).ok_or(at_fault(place))?);
    }
    Ok(lemmas)
}

/// Latch numbers, and at the end a number of value 0 without a sign.
fn lemma(line: &[u8], latches: &Number, rules: Rules) -> Option<Lemma> {
    let words = words(line, rules);
    let (&last, others) = words.split_last()?;
    if !closes(last, rules) {
        return if rules.breaks(Rules::LemmaNotClosed) { all_literals(&words, latches, rules) } else { None };
    }
    let others = match rules {
        Rules::ZeroInsideLetThrough => others.iter().copied().filter(|word| !closes(word, rules)).collect(),
        _ => others.to_vec(),
    };
    all_literals(&others, latches, rules)
}

fn closes(word: &[u8], rules: Rules) -> bool {
    let word = match word {
        [b'-', rest @ ..] if rules.breaks(Rules::MinusZeroCloses) => rest,
        _ => word,
    };
    Number::read(word, rules).is_some_and(|number| number.is_zero())
}

fn all_literals(words: &[&[u8]], latches: &Number, rules: Rules) -> Option<Lemma> {
    words.iter().map(|word| literal(word, latches, rules)).collect()
}

/// A latch number from 1 to L, with or without a minus before it.
fn literal(word: &[u8], latches: &Number, rules: Rules) -> Option<i64> {
    let (negated, digits) = match word {
        [b'-', rest @ ..] => (true, rest),
        _ => (false, word),
    };
    let number = Number::read(digits, rules)?;
    let in_range = !number.is_zero() && (number <= *latches || rules.breaks(Rules::LatchNumberPastRange));
    let latch = number.count() as i64;
    in_range.then_some(if negated { -latch } else { latch })
}
