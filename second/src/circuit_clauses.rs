//! The clauses of a circuit, in the order the requests' pages fix: latches in Init; gates, latches and then constraints
//! in Tr; gates, the bad literal or output and then constraints in Bad.

use crate::circuit_gates::{Edge, Source, Start, Wired};
use crate::circuit_lemmas::Lemma;
use crate::file::{Clause, Problem};
use crate::mutants::Rules;

/// A constant, or a literal of the problem.
#[derive(Clone, Copy, PartialEq, Eq)]
enum Value {
    Constant(bool),
    Literal(i16),
}

impl Value {
    fn not(self) -> Value {
        match self {
            Value::Constant(value) => Value::Constant(!value),
            Value::Literal(literal) => Value::Literal(-literal),
        }
    }
}

/// The numbers that latches, inputs and gates get: n, how many inputs, how many gates.
struct Names {
    n: usize,
    inputs: usize,
    gates: usize,
    rules: Rules,
}

impl Names {
    fn latch(&self, at: usize) -> Value {
        Value::Literal(1 + at as i16)
    }

    fn next(&self, at: usize) -> Value {
        Value::Literal((self.n + 1 + at) as i16)
    }

    /// Inputs come before gates.
    fn input(&self, at: usize) -> Value {
        let before = if self.rules.breaks(Rules::GatesBeforeInputs) { self.gates } else { 0 };
        Value::Literal((2 * self.n + before + 1 + at) as i16)
    }

    fn gate(&self, at: usize) -> Value {
        let before = if self.rules.breaks(Rules::GatesBeforeInputs) { 0 } else { self.inputs };
        Value::Literal((2 * self.n + before + 1 + at) as i16)
    }

    fn value(&self, edge: Edge) -> Value {
        let value = match edge.source {
            Source::False => Value::Constant(self.rules.breaks(Rules::ConstantsExchanged)),
            Source::Input(at) => self.input(at),
            Source::Latch(at) => self.latch(at),
            Source::Gate(at) => self.gate(at),
        };
        if edge.negated {
            value.not()
        } else {
            value
        }
    }
}

/// The problem of a circuit with its lemmas.
pub fn build(wired: &Wired, lemmas: &[Lemma], rules: Rules) -> Problem {
    let n = wired.next.len();
    let names = Names { n, inputs: wired.inputs, gates: wired.gates.len(), rules };
    let written = |clauses: Vec<Vec<Value>>| clauses.iter().filter_map(|values| clause(values, rules)).collect();
    let gates: Vec<Vec<Value>> = (0..wired.gates.len()).flat_map(|at| gate_clauses(wired, &names, at)).collect();
    let latches: Vec<Vec<Value>> = (0..n).flat_map(|at| latch_clauses(wired, &names, at)).collect();
    let bad = bad_clauses(wired, &names);
    let constraints = constraint_clauses(wired, &names);
    let init = init_clauses(wired, &names);
    let tr = match rules {
        Rules::LatchesBeforeGates => [latches, gates.clone(), constraints.clone()],
        Rules::ConstraintsBeforeLatches => [gates.clone(), constraints.clone(), latches],
        Rules::ConstraintMissingInTr => [gates.clone(), latches, vec![]],
        Rules::ConstraintOnNextState => [gates.clone(), latches, on_next_state(wired, &names)],
        _ => [gates.clone(), latches, constraints.clone()],
    };
    let bad = match rules {
        Rules::OutputBeforeGates => [bad, gates, constraints],
        Rules::BadWithoutGates => [vec![], bad, constraints],
        Rules::ConstraintsBeforeBad => [gates, constraints, bad],
        Rules::ConstraintMissingInBad => [gates, bad, vec![]],
        _ => [gates, bad, constraints],
    };
    let lemmas = lemmas.iter().map(|lemma| lemma.iter().map(|&latch| latch as i16).collect()).collect();
    let m = names.inputs + names.gates;
    Problem { n, m, init: written(init), tr: written(tr.concat()), bad: written(bad.concat()), lemmas }
}

/// How many clauses Init, Tr and Bad would have if no constant dropped one. Only a mutant asks.
pub fn clauses_with_constants(wired: &Wired) -> usize {
    let started = wired.starts.iter().filter(|&&start| start != Start::Either).count();
    let bad = wired.bad.len() + wired.outputs.len();
    started + 2 * wired.next.len() + 2 * 3 * wired.gates.len() + bad + 2 * wired.constraints.len()
}

/// (-i) for a latch that starts at 0, (i) for one that starts at 1, and none for one that starts at either.
fn init_clauses(wired: &Wired, names: &Names) -> Vec<Vec<Value>> {
    let latches = wired.starts.iter().enumerate();
    let starts = latches.filter_map(|(at, &start)| start_clause(names.latch(at), start, names.rules));
    let constraints = wired.constraints.iter().filter(|edge| matches!(edge.source, Source::Latch(_)));
    match names.rules {
        Rules::StartIsFree => vec![],
        Rules::ConstraintInInit => starts.chain(constraints.map(|&edge| vec![names.value(edge)])).collect(),
        _ => starts.collect(),
    }
}

fn start_clause(latch: Value, start: Start, rules: Rules) -> Option<Vec<Value>> {
    match (start, rules) {
        (Start::Zero, Rules::StartIsOne) => Some(vec![latch]),
        (Start::Zero, _) => Some(vec![latch.not()]),
        (Start::One, Rules::StartOneIsZero) => Some(vec![latch.not()]),
        (Start::One, Rules::StartOneIsFree) => None,
        (Start::One, _) => Some(vec![latch]),
        (Start::Either, Rules::StartAtItselfIsZero) => Some(vec![latch.not()]),
        (Start::Either, Rules::StartAtItselfIsOne) => Some(vec![latch]),
        (Start::Either, Rules::FreeStartHasAClause) => Some(vec![latch, latch.not()]),
        (Start::Either, _) => None,
    }
}

/// The bad literal or, where there is none, the output.
fn bad_clauses(wired: &Wired, names: &Names) -> Vec<Vec<Value>> {
    let output_taken = names.rules.breaks(Rules::OutputBesideBadTaken) && !wired.outputs.is_empty();
    if wired.bad.is_empty() || output_taken {
        return wired.outputs.iter().map(|&edge| vec![names.value(edge)]).collect();
    }
    let holds = names.rules.breaks(Rules::BadLiteralMustHold);
    let value = |edge: Edge| if holds { names.value(edge).not() } else { names.value(edge) };
    wired.bad.iter().map(|&edge| vec![value(edge)]).collect()
}

/// A clause for each constraint, by line order.
fn constraint_clauses(wired: &Wired, names: &Names) -> Vec<Vec<Value>> {
    let rules = names.rules;
    let negated = |edge: Edge| edge.negated && !rules.breaks(Rules::ConstraintNegationLost);
    let value = |&edge: &Edge| names.value(Edge { negated: negated(edge), ..edge });
    let mut values: Vec<Value> = wired.constraints.iter().map(value).collect();
    match rules {
        Rules::FirstConstraintOnly => values.truncate(1),
        Rules::ConstraintsReversed => values.reverse(),
        Rules::EqualConstraintsOnce => values.dedup(),
        Rules::FalseConstraintDropped => values.retain(|&value| value != Value::Constant(false)),
        Rules::ConstraintsAsOneClause if !values.is_empty() => return vec![values],
        _ => {}
    }
    values.into_iter().map(|value| vec![value]).collect()
}

/// The constraints with next values in the place of latches. Only a mutant asks.
fn on_next_state(wired: &Wired, names: &Names) -> Vec<Vec<Value>> {
    let value = |&edge: &Edge| match edge.source {
        Source::Latch(at) if edge.negated => names.next(at).not(),
        Source::Latch(at) => names.next(at),
        _ => names.value(edge),
    };
    wired.constraints.iter().map(|edge| vec![value(edge)]).collect()
}

/// g = a and b: (a -g)(b -g)(g -a -b).
fn gate_clauses(wired: &Wired, names: &Names, at: usize) -> [Vec<Value>; 3] {
    let g = names.gate(at);
    let [a, b] = wired.gates[at].map(|edge| names.value(edge));
    let first = vec![a, g.not()];
    let second = vec![b, g.not()];
    let third = vec![g, a.not(), b.not()];
    match names.rules {
        Rules::GateBeforeItsInputs => [vec![g.not(), a], vec![g.not(), b], third],
        Rules::LongClauseFirst => [third, first, second],
        Rules::GateLastInLongClause => [first, second, vec![a.not(), b.not(), g]],
        Rules::GateInputsExchanged => [second, first, vec![g, b.not(), a.not()]],
        Rules::EqualInputsOnce if a == b => [first.clone(), first, vec![g, a.not()]],
        _ => [first, second, third],
    }
}

/// A latch with next literal x: (-(n+i) x)(n+i -x).
fn latch_clauses(wired: &Wired, names: &Names, at: usize) -> [Vec<Value>; 2] {
    let next = names.next(at);
    let negated = wired.next[at].negated && !names.rules.breaks(Rules::NextNegationLost);
    let x = names.value(Edge { negated, ..wired.next[at] });
    let first = vec![next.not(), x];
    let second = vec![next, x.not()];
    match names.rules {
        Rules::LatchClausesExchanged => [second, first],
        Rules::NextValueLast => [vec![x, next.not()], vec![x.not(), next]],
        _ => [first, second],
    }
}

/// A constant false leaves its clause, a constant true drops it.
fn clause(values: &[Value], rules: Rules) -> Option<Clause> {
    let drops = |value: &Value| match value {
        Value::Constant(true) => !rules.breaks(Rules::TrueLeavesItsClause),
        Value::Constant(false) => rules.breaks(Rules::FalseDropsItsClause),
        Value::Literal(_) => false,
    };
    let literal = |value: &Value| match value {
        Value::Literal(literal) => Some(*literal),
        Value::Constant(_) => None,
    };
    if values.iter().any(drops) {
        return None;
    }
    Some(values.iter().filter_map(literal).collect())
}

/// The same circuit with its inputs, latches and gates in other orders, each told by the old places. Only mutants ask.
pub fn reordered(wired: &Wired, inputs: &[usize], latches: &[usize], gates: &[usize]) -> Wired {
    let new = |order: &[usize], old: usize| order.iter().position(|&at| at == old).unwrap_or(old);
    let edge = |edge: Edge| {
        let source = match edge.source {
            Source::False => Source::False,
            Source::Input(at) => Source::Input(new(inputs, at)),
            Source::Latch(at) => Source::Latch(new(latches, at)),
            Source::Gate(at) => Source::Gate(new(gates, at)),
        };
        Edge { source, ..edge }
    };
    let all = |edges: &[Edge]| edges.iter().copied().map(edge).collect();
    Wired {
        inputs: wired.inputs,
        starts: latches.iter().map(|&at| wired.starts[at]).collect(),
        next: latches.iter().map(|&at| edge(wired.next[at])).collect(),
        outputs: all(&wired.outputs),
        bad: all(&wired.bad),
        constraints: all(&wired.constraints),
        gates: gates.iter().map(|&at| wired.gates[at].map(edge)).collect(),
        order: vec![],
    }
}
