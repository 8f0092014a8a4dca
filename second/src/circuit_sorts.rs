//! What a text of edition 1.9 has that one of 2007 has not: the comparison counts how often it meets each.

use crate::circuit_text::CircuitText;
use crate::number::Number;

/// What there is of edition 1.9, in the order of `NAMES`: in texts that are read, then in those refused by 15 or 14.
#[derive(Clone, Copy, PartialEq, Eq, Debug)]
pub enum Sort {
    Six,
    Seven,
    Eight,
    Nine,
    StartAtZero,
    StartAtOne,
    StartAtItself,
    BadLiteral,
    Output,
    Constraints,
    ConstraintFalse,
    Justice,
    Fairness,
    NotOneBad,
    ManyClauses,
}

impl Sort {
    pub const NAMES: [&'static str; 15] = [
        "six-numbers",
        "seven",
        "eight",
        "nine",
        "start-0",
        "start-1",
        "start-itself",
        "bad",
        "output",
        "constraints",
        "constraint-0",
        "justice",
        "fairness",
        "not-one-bad",
        "many-clauses",
    ];
}

/// The sorts of a text of edition 1.9 that is refused by this number or, where it is under 13, read.
pub fn sorts(text: &CircuitText, number: u64) -> Vec<Sort> {
    let header = &text.header;
    match number {
        0..=12 => read_sorts(text),
        14 => when(&[
            (header.bad.plus(&header.outputs) != Number::of(1), Sort::NotOneBad),
            (header.constraints.count() > 2_000, Sort::ManyClauses),
        ]),
        15 => when(&[(!header.justice.is_zero(), Sort::Justice), (!header.fairness.is_zero(), Sort::Fairness)]),
        _ => vec![],
    }
}

fn read_sorts(text: &CircuitText) -> Vec<Sort> {
    let starts: Vec<&Number> = text.latches.iter().filter_map(|line| line.literals.get(2)).collect();
    let is_false = |number: &Number| number.is_zero();
    let numbers = text.header.numbers;
    when(&[
        (numbers == 6, Sort::Six),
        (numbers == 7, Sort::Seven),
        (numbers == 8, Sort::Eight),
        (numbers == 9, Sort::Nine),
        (starts.iter().any(|start| start.is_zero()), Sort::StartAtZero),
        (starts.iter().any(|start| **start == Number::of(1)), Sort::StartAtOne),
        (starts.iter().any(|start| **start > Number::of(1)), Sort::StartAtItself),
        (!text.bad.is_empty(), Sort::BadLiteral),
        (!text.outputs.is_empty(), Sort::Output),
        (!text.constraints.is_empty(), Sort::Constraints),
        (text.constraints.iter().any(|line| is_false(&line.literals[0])), Sort::ConstraintFalse),
        (text.constraints.len() > 2_000, Sort::ManyClauses),
    ])
}

fn when(list: &[(bool, Sort)]) -> Vec<Sort> {
    list.iter().filter(|(found, _)| *found).map(|&(_, sort)| sort).collect()
}
