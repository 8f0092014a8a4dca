//! Numbers of any size by their decimal digits, and a line of them with exactly one space between two.

use crate::mutants::Rules;
use std::cmp::Ordering;

/// A number by the values of its digits, without leading zeros; 0 has none.
#[derive(Clone, PartialEq, Eq, Hash, Debug)]
pub struct Number {
    digits: Vec<u8>,
}

impl Number {
    pub fn of(value: u64) -> Number {
        Number::from_digits(value.to_string().as_bytes())
    }

    fn from_digits(text: &[u8]) -> Number {
        let zeros = text.iter().take_while(|&&byte| byte == b'0').count();
        Number { digits: text[zeros..].iter().map(|byte| byte - b'0').collect() }
    }

    /// A word of digits, one at least; nothing if there is any other byte in it.
    pub fn read(word: &[u8], rules: Rules) -> Option<Number> {
        let word = match word {
            [b'+', rest @ ..] if rules.breaks(Rules::PlusLetThrough) => rest,
            _ => word,
        };
        if word.is_empty() || !word.iter().all(u8::is_ascii_digit) {
            return None;
        }
        let number = Number::from_digits(word);
        match rules {
            Rules::LeadingZerosRefused if word.len() > number.digits.len().max(1) => None,
            Rules::LargeNumbersRefused if number > Number::of(u64::MAX) => None,
            Rules::LargeNumbersCut => Some(Number::of(number.lowest_64_bits())),
            _ => Some(number),
        }
    }

    pub fn is_zero(&self) -> bool {
        self.digits.is_empty()
    }

    pub fn is_odd(&self) -> bool {
        self.digits.last().is_some_and(|digit| digit % 2 == 1)
    }

    /// The even one of 2v and 2v+1.
    pub fn made_even(&self) -> Number {
        let mut digits = self.digits.clone();
        if let Some(last) = digits.last_mut() {
            *last -= *last % 2;
        }
        let zero = digits == [0];
        Number { digits: if zero { vec![] } else { digits } }
    }

    pub fn plus(&self, other: &Number) -> Number {
        let digit = |number: &Number, at: usize| number.digits.iter().rev().nth(at).copied().unwrap_or(0);
        let mut digits = Vec::new();
        let mut carry = 0;
        for at in 0..self.digits.len().max(other.digits.len()) {
            let sum = digit(self, at) + digit(other, at) + carry;
            digits.push(sum % 10);
            carry = sum / 10;
        }
        if carry > 0 {
            digits.push(carry);
        }
        digits.reverse();
        Number { digits }
    }

    /// The value, or the largest there is room for: more than any text has lines.
    pub fn count(&self) -> usize {
        let longer = |value: usize, &digit: &u8| value.saturating_mul(10).saturating_add(digit as usize);
        self.digits.iter().fold(0, longer)
    }

    fn lowest_64_bits(&self) -> u64 {
        self.digits.iter().fold(0, |value: u64, &digit| value.wrapping_mul(10).wrapping_add(digit as u64))
    }
}

impl Ord for Number {
    fn cmp(&self, other: &Number) -> Ordering {
        self.digits.len().cmp(&other.digits.len()).then_with(|| self.digits.cmp(&other.digits))
    }
}

impl PartialOrd for Number {
    fn partial_cmp(&self, other: &Number) -> Option<Ordering> {
        Some(self.cmp(other))
    }
}

/// The words of a line: what stands between its spaces, so that a space too many gives a word of no bytes.
pub fn words(line: &[u8], rules: Rules) -> Vec<&[u8]> {
    let line = match line {
        [rest @ .., b'\r'] if rules.breaks(Rules::ReturnLetThrough) => rest,
        _ => line,
    };
    let between = |&byte: &u8| byte == b' ' || (byte == b'\t' && rules.breaks(Rules::TabLetThrough));
    let words = line.split(between);
    match rules {
        Rules::SpacesLetThrough => words.filter(|word| !word.is_empty()).collect(),
        _ => words.collect(),
    }
}

/// The numbers of a line of nothing but numbers.
pub fn numbers(words: &[&[u8]], rules: Rules) -> Option<Vec<Number>> {
    words.iter().map(|word| Number::read(word, rules)).collect()
}
