//! What a line of a circuit can be at fault for when all lines are known: a variable that no line defines, or a gate
//! that cannot be worked out from constants, inputs and latches. If there is none, each literal is told where it leads,
//! and each latch where it starts.

use crate::circuit_text::{CircuitText, Line};
use crate::file::Refusal;
use crate::lines::at_fault;
use crate::mutants::Rules;
use crate::number::Number;
use std::collections::HashMap;

/// What a variable stands for; inputs, latches and gates by line order from 0.
#[derive(Clone, Copy, PartialEq, Eq, Debug)]
pub enum Source {
    False,
    Input(usize),
    Latch(usize),
    Gate(usize),
}

/// What a literal leads to.
#[derive(Clone, Copy, PartialEq, Eq, Debug)]
pub struct Edge {
    pub source: Source,
    pub negated: bool,
}

/// Where a latch starts.
#[derive(Clone, Copy, PartialEq, Eq, Debug)]
pub enum Start {
    Zero,
    One,
    Either,
}

/// A circuit by its edges: of each latch its start and the next value, of each output, bad literal and constraint its
/// value, of each gate the two inputs. The last is an order in which the gates can be worked out.
#[derive(Clone, Debug)]
pub struct Wired {
    pub inputs: usize,
    pub starts: Vec<Start>,
    pub next: Vec<Edge>,
    pub outputs: Vec<Edge>,
    pub bad: Vec<Edge>,
    pub constraints: Vec<Edge>,
    pub gates: Vec<[Edge; 2]>,
    pub order: Vec<usize>,
}

/// The edges of each section; nothing where no line defines the variable of one.
struct Edges {
    next: Vec<Option<Edge>>,
    outputs: Vec<Option<Edge>>,
    bad: Vec<Option<Edge>>,
    constraints: Vec<Option<Edge>>,
    justice: Vec<Option<Edge>>,
    fairness: Vec<Option<Edge>>,
    gates: Vec<Option<[Edge; 2]>>,
}

/// The edges of a circuit, or the first line that is at fault for them.
pub fn wire(text: &CircuitText, undefined_judged: bool, circles_judged: bool, rules: Rules) -> Result<Wired, Refusal> {
    let edges = edges(text, undefined_judged, rules);
    let gates = &edges.gates;
    let order = worked_out(gates, &edges.next, rules);
    let mut worked = vec![!circles_judged; gates.len()];
    order.iter().for_each(|&at| worked[at] = true);
    if rules.breaks(Rules::NeedsACircleLetThrough) {
        worked = (0..gates.len()).map(|at| worked[at] || (gates[at].is_some() && !on_circle(gates, at))).collect();
    }
    if let Some(place) = first_fault(text, &edges, &worked, rules) {
        return Err(at_fault(place));
    }
    let all = |edges: Vec<Option<Edge>>| edges.into_iter().flatten().collect();
    Ok(Wired {
        inputs: text.inputs.len(),
        starts: text.latches.iter().map(|line| start(line, text.header.newer(), rules)).collect(),
        next: all(edges.next),
        outputs: all(edges.outputs),
        bad: all(edges.bad),
        constraints: all(edges.constraints),
        gates: edges.gates.into_iter().flatten().collect(),
        order,
    })
}

fn edges(text: &CircuitText, undefined_judged: bool, rules: Rules) -> Edges {
    let sources = sources(text);
    let but_for = |mutant: Rules| undefined_judged && !rules.breaks(mutant);
    let edges = |lines: &[Line], at: usize, judged: bool| -> Vec<Option<Edge>> {
        lines.iter().map(|line| edge(&sources, &line.literals[at], judged)).collect()
    };
    let [first, second] = [1, 2].map(|at| edges(&text.gates, at, undefined_judged));
    Edges {
        next: edges(&text.latches, 1, undefined_judged),
        outputs: edges(&text.outputs, 0, undefined_judged),
        bad: edges(&text.bad, 0, but_for(Rules::UndefinedBadIsFalse)),
        constraints: edges(&text.constraints, 0, but_for(Rules::UndefinedConstraintIsFalse)),
        justice: edges(&text.justice, 0, but_for(Rules::UndefinedJusticeLetThrough)),
        fairness: edges(&text.fairness, 0, but_for(Rules::UndefinedFairnessLetThrough)),
        gates: first.into_iter().zip(second).map(|(a, b)| Some([a?, b?])).collect(),
    }
}

/// The place of the first line, in the order of the text, that uses a variable no line defines, or that is the line of
/// a gate that cannot be worked out.
fn first_fault(text: &CircuitText, edges: &Edges, worked: &[bool], rules: Rules) -> Option<usize> {
    let late = |edge: Edge| matches!(edge.source, Source::Gate(at) if !worked[at]);
    let in_section = |lines: &[Line], edges: &[Option<Edge>], for_its_gate: bool| {
        let faulty = |edge: &Option<Edge>| edge.is_none_or(|edge| for_its_gate && late(edge));
        edges.iter().position(faulty).map(|at| lines[at].place)
    };
    let latch_for_its_gate = rules.breaks(Rules::LatchAtFaultForItsGate);
    let bad_for_its_gate = rules.breaks(Rules::BadAtFaultForItsGate);
    let older = in_section(&text.latches, &edges.next, latch_for_its_gate)
        .or_else(|| in_section(&text.outputs, &edges.outputs, latch_for_its_gate));
    let newer = in_section(&text.bad, &edges.bad, bad_for_its_gate)
        .or_else(|| in_section(&text.constraints, &edges.constraints, bad_for_its_gate))
        .or_else(|| in_section(&text.justice, &edges.justice, bad_for_its_gate))
        .or_else(|| in_section(&text.fairness, &edges.fairness, bad_for_its_gate));
    let gate = (0..worked.len()).find(|&at| edges.gates[at].is_none() || !worked[at]).map(|at| text.gates[at].place);
    match rules {
        Rules::UndefinedInGatesFirst => older.or(gate).or(newer),
        _ => older.or(newer).or(gate),
    }
}

/// A latch line's third number is 0, 1 or the latch itself; without one the latch starts at 0.
fn start(line: &Line, newer: bool, rules: Rules) -> Start {
    match line.literals.get(2) {
        None if newer && rules.breaks(Rules::MissingStartIsFree) => Start::Either,
        None => Start::Zero,
        Some(number) if number.is_zero() => Start::Zero,
        Some(number) if *number == Number::of(1) => Start::One,
        Some(_) => Start::Either,
    }
}

/// What each variable stands for, by its even literal.
fn sources(text: &CircuitText) -> HashMap<Number, Source> {
    let mut found = HashMap::from([(Number::of(0), Source::False)]);
    let mut add = |lines: &[Line], source: fn(usize) -> Source| {
        for (at, line) in lines.iter().enumerate() {
            found.entry(line.literals[0].made_even()).or_insert(source(at));
        }
    };
    add(&text.inputs, Source::Input);
    add(&text.latches, Source::Latch);
    add(&text.gates, Source::Gate);
    found
}

/// Where a literal leads. Nothing if no line defines its variable; where that is not judged the variable is false.
fn edge(sources: &HashMap<Number, Source>, literal: &Number, undefined_judged: bool) -> Option<Edge> {
    let unknown = if undefined_judged { None } else { Some(Source::False) };
    let source = sources.get(&literal.made_even()).copied().or(unknown)?;
    Some(Edge { source, negated: literal.is_odd() })
}

/// The gates that can be worked out, each after those it needs.
fn worked_out(gates: &[Option<[Edge; 2]>], next: &[Option<Edge>], rules: Rules) -> Vec<usize> {
    let mut users = vec![Vec::new(); gates.len()];
    let mut waits_for = vec![0; gates.len()];
    let mut order = Vec::new();
    for (at, gate) in gates.iter().enumerate() {
        let Some(edges) = gate else {
            continue;
        };
        let needed: Vec<usize> = edges.iter().filter_map(|edge| gate_of(*edge, next, rules)).collect();
        if rules.breaks(Rules::LaterGatesRefused) && needed.iter().any(|&other| other >= at) {
            continue;
        }
        waits_for[at] = needed.len();
        needed.iter().for_each(|&other| users[other].push(at));
        if needed.is_empty() {
            order.push(at);
        }
    }
    let mut done = 0;
    while done < order.len() {
        for &user in &users[order[done]] {
            waits_for[user] -= 1;
            if waits_for[user] == 0 {
                order.push(user);
            }
        }
        done += 1;
    }
    order
}

/// The gate that an edge comes from. A mutant looks through a latch at the gate of its next value.
fn gate_of(edge: Edge, next: &[Option<Edge>], rules: Rules) -> Option<usize> {
    match edge.source {
        Source::Gate(at) => Some(at),
        Source::Latch(at) if rules.breaks(Rules::CirclesThroughLatches) => match next[at]?.source {
            Source::Gate(at) => Some(at),
            _ => None,
        },
        _ => None,
    }
}

/// Whether a gate needs itself. Only a mutant asks.
fn on_circle(gates: &[Option<[Edge; 2]>], start: usize) -> bool {
    let mut seen = vec![false; gates.len()];
    let mut left = vec![start];
    while let Some(at) = left.pop() {
        for edge in gates[at].iter().flatten() {
            let Source::Gate(other) = edge.source else {
                continue;
            };
            if other == start {
                return true;
            }
            if !seen[other] {
                seen[other] = true;
                left.push(other);
            }
        }
    }
    false
}
