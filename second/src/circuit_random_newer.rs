//! Random circuits of edition 1.9: one of 2007 with start values, a bad literal and constraints, and some that are
//! refused for what else they have.

use crate::circuit_random::{circuit, edge, CircuitSizes, Drawn};
use crate::random::Random;

/// A random circuit with one bad literal or one output, and neither justice nor fairness.
pub fn newer_circuit(random: &mut Random, sizes: CircuitSizes) -> Drawn {
    let mut drawn = circuit(random, sizes);
    for at in 0..drawn.latches.len() {
        let start = [None, None, Some(0), Some(1), Some(1), Some(drawn.latches[at][0])][random.below(6)];
        if start == Some(1) && !random.once_in(4) {
            drawn.turn_latch(at);
        }
        drawn.starts[at] = start;
    }
    if random.once_in(20) {
        drawn.outputs = vec![1];
    }
    if !random.once_in(3) {
        drawn.bad = std::mem::take(&mut drawn.outputs);
    }
    for _ in 0..[0, 0, 1, 1, 1, 2, 2, 3][random.below(8)] {
        let next = constraint(random, &drawn);
        drawn.constraints.push(next);
    }
    drawn.numbers = header_numbers(random, &drawn);
    drawn
}

/// As before, with justice or fairness, or with other than one of bad literals and outputs; a few with a variable that
/// no line defines.
pub fn refused_circuit(random: &mut Random, sizes: CircuitSizes) -> Drawn {
    let mut drawn = newer_circuit(random, sizes);
    let kind = random.below(8);
    if kind < 5 {
        let sets = [0, 1, 1, 2, 3][random.below(5)];
        drawn.justice = (0..sets).map(|_| literals(random, &drawn, 3)).collect();
        drawn.fairness = literals(random, &drawn, 3);
    }
    if kind > 3 {
        drawn.bad = literals(random, &drawn, 3);
        drawn.outputs = literals(random, &drawn, 3);
    }
    drawn.numbers = header_numbers(random, &drawn);
    drawn
}

/// As many as the last section that is not empty needs, six at least, or more.
fn header_numbers(random: &mut Random, drawn: &Drawn) -> usize {
    let sections = [drawn.bad.len(), drawn.constraints.len(), drawn.justice.len(), drawn.fairness.len()];
    let needed = sections.iter().rposition(|&lines| lines > 0).map_or(6, |last| 6 + last);
    needed + random.below(10 - needed)
}

/// Mostly any literal; sometimes one that is there already, a constant 1, an input, the negation of what is bad, or
/// rarely a constant 0.
fn constraint(random: &mut Random, drawn: &Drawn) -> usize {
    let bad = drawn.bad.iter().chain(&drawn.outputs).next().copied();
    match (random.below(24), drawn.constraints.last(), bad) {
        (0, _, _) => 0,
        (1 | 2, _, _) => 1,
        (3 | 4, Some(&before), _) => before,
        (5 | 6, _, Some(bad)) => bad ^ 1,
        (7 | 8, _, _) if !drawn.inputs.is_empty() => edge(random, &drawn.inputs),
        _ => edge(random, &known(drawn)),
    }
}

/// Fewer literals than that, sometimes one whose variable nothing may define.
fn literals(random: &mut Random, drawn: &Drawn, below: usize) -> Vec<usize> {
    let any: Vec<usize> = (1..=drawn.most).map(|variable| 2 * variable).collect();
    let known = known(drawn);
    let defined = |random: &mut Random| if random.once_in(20) { edge(random, &any) } else { edge(random, &known) };
    (0..random.below(below)).map(|_| defined(random)).collect()
}

/// The literals that lines define.
fn known(drawn: &Drawn) -> Vec<usize> {
    let latches = drawn.latches.iter().map(|latch| latch[0]);
    drawn.inputs.iter().copied().chain(latches).chain(drawn.gates.iter().map(|gate| gate[0])).collect()
}

impl Drawn {
    /// The same circuit with one latch standing for its negation, so that it starts at 1 where it started at 0.
    fn turn_latch(&mut self, at: usize) {
        let own = self.latches[at][0];
        let turned = |literal: &mut usize| *literal ^= (*literal & !1 == own) as usize;
        self.latches.iter_mut().for_each(|latch| turned(&mut latch[1]));
        self.latches[at][1] ^= 1;
        self.gates.iter_mut().for_each(|gate| gate[1..].iter_mut().for_each(turned));
        self.outputs.iter_mut().for_each(turned);
        let number = 1 + at as i64;
        for literal in self.lemmas.iter_mut().flatten().filter(|literal| literal.abs() == number) {
            *literal = -*literal;
        }
    }
}
