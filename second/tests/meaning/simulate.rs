//! A circuit in AIGER's words, simulated: all states, all inputs, gates worked out one from another. No clauses.

use crate::walk::Walk;
use second::circuit_random::Drawn;

/// The value of a literal at a state and inputs, whose bits are by line order.
pub fn value(circuit: &Drawn, literal: usize, state: usize, inputs: usize) -> bool {
    let variable = literal - literal % 2;
    let input = circuit.inputs.iter().position(|&input| input == variable);
    let latch = circuit.latches.iter().position(|latch| latch[0] == variable);
    let gate = circuit.gates.iter().find(|gate| gate[0] == variable);
    let positive = match (variable, input, latch, gate) {
        (0, _, _, _) => false,
        (_, Some(at), _, _) => inputs >> at & 1 == 1,
        (_, _, Some(at), _) => state >> at & 1 == 1,
        (_, _, _, Some(&[_, a, b])) => value(circuit, a, state, inputs) && value(circuit, b, state, inputs),
        _ => panic!("no line defines {variable}"),
    };
    positive != (literal % 2 == 1)
}

/// The state after this one.
pub fn next(circuit: &Drawn, state: usize, inputs: usize) -> usize {
    let bits = circuit.latches.iter().enumerate();
    bits.map(|(at, latch)| (value(circuit, latch[1], state, inputs) as usize) << at).sum()
}

/// Whether the circuit may start in this state: each latch at its start value, one that starts at itself at either.
pub fn may_start(circuit: &Drawn, state: usize) -> bool {
    let starts = circuit.latches.iter().zip(&circuit.starts).enumerate();
    let fits = |(at, (latch, start)): (usize, (&[usize; 2], &Option<usize>))| match *start {
        Some(own) if own == latch[0] => true,
        start => state >> at & 1 == start.unwrap_or(0),
    };
    starts.into_iter().all(fits)
}

/// Whether every constraint is 1 at a state and inputs.
pub fn constrained(circuit: &Drawn, state: usize, inputs: usize) -> bool {
    circuit.constraints.iter().all(|&literal| value(circuit, literal, state, inputs))
}

/// All states and steps of a circuit. A step counts only if every constraint is 1 before it, for its inputs. A state is
/// bad if for some inputs the bad literal, or the single output where there is none, and every constraint are 1.
pub fn simulated(circuit: &Drawn) -> Walk {
    let states = 1 << circuit.latches.len();
    let inputs = 1 << circuit.inputs.len();
    let bad = circuit.bad.first().unwrap_or_else(|| &circuit.outputs[0]);
    let mut steps: Vec<(usize, usize)> = Vec::new();
    for state in 0..states {
        let counted = (0..inputs).filter(|&inputs| constrained(circuit, state, inputs));
        steps.extend(counted.map(|inputs| (state, next(circuit, state, inputs))));
    }
    steps.sort();
    steps.dedup();
    let holds = |lemma: &Vec<i64>, state: usize| {
        lemma.iter().any(|&latch| (state >> (latch.unsigned_abs() - 1) & 1 == 1) == (latch > 0))
    };
    let is_bad =
        |state: usize, inputs: usize| value(circuit, *bad, state, inputs) && constrained(circuit, state, inputs);
    let lemmas = circuit.lemmas.iter();
    Walk {
        states,
        init: (0..states).map(|state| may_start(circuit, state)).collect(),
        bad: (0..states).map(|state| (0..inputs).any(|inputs| is_bad(state, inputs))).collect(),
        steps,
        lemmas: lemmas.map(|lemma| (0..states).map(|state| holds(lemma, state)).collect()).collect(),
    }
}
