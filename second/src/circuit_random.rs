//! Random circuits by their literals, with lemmas, and their texts.

use crate::random::Random;

/// A circuit as its lines have it: literals of inputs, of latches with their next literal, of outputs, and of gates with
/// their two inputs. The variables are any of 1 to `most`. What only edition 1.9 has is empty where the header has five
/// numbers: third numbers of latch lines, bad literals, constraints, the literals of each justice set, and fairness.
#[derive(Clone, Debug)]
pub struct Drawn {
    pub most: usize,
    pub inputs: Vec<usize>,
    pub latches: Vec<[usize; 2]>,
    pub outputs: Vec<usize>,
    pub gates: Vec<[usize; 3]>,
    pub lemmas: Vec<Vec<i64>>,
    pub numbers: usize,
    pub starts: Vec<Option<usize>>,
    pub bad: Vec<usize>,
    pub constraints: Vec<usize>,
    pub justice: Vec<Vec<usize>>,
    pub fairness: Vec<usize>,
}

/// A line after the header: literals, or a count.
pub enum Row {
    Literals(Vec<usize>),
    Count(usize),
}

/// The largest sizes of a random circuit.
#[derive(Clone, Copy)]
pub struct CircuitSizes {
    pub inputs: usize,
    pub latches: usize,
    pub gates: usize,
    pub lemmas: usize,
}

pub const SMALL_CIRCUIT: CircuitSizes = CircuitSizes { inputs: 2, latches: 3, gates: 5, lemmas: 5 };

/// A random circuit with one output. Gates use what stands before them in some order, but their lines are mostly mixed.
pub fn circuit(random: &mut Random, sizes: CircuitSizes) -> Drawn {
    let inputs = random.below(sizes.inputs + 1);
    let latches = 1 + random.below(sizes.latches);
    let gates = random.below(sizes.gates + 1);
    let most = inputs + latches + gates + random.below(3);
    let mut literals: Vec<usize> = (1..=most).map(|v| 2 * v).collect();
    if !random.once_in(4) {
        shuffle(random, &mut literals);
    }
    let (of_inputs, rest) = literals.split_at(inputs);
    let (of_latches, rest) = rest.split_at(latches);
    let mut known = [of_inputs, of_latches].concat();
    let mut lines = Vec::new();
    for &gate in &rest[..gates] {
        let a = edge(random, &known);
        let b = match random.below(12) {
            0 => a,
            1 => a ^ 1,
            _ => edge(random, &known),
        };
        lines.push([gate, a, b]);
        known.push(gate);
    }
    let mut next: Vec<[usize; 2]> = of_latches.iter().map(|&latch| [latch, late_edge(random, &known)]).collect();
    let mut output = late_edge(random, &known);
    if random.once_in(2) {
        next.iter_mut().for_each(|latch| latch[1] = calm(random, latch[1], of_latches));
        output = calm(random, output, of_latches);
    }
    let outputs = vec![output];
    if !random.once_in(3) {
        shuffle(random, &mut lines);
    }
    let lemmas = lemmas(random, latches, sizes.lemmas);
    Drawn {
        most,
        inputs: of_inputs.to_vec(),
        latches: next,
        outputs,
        gates: lines,
        lemmas,
        numbers: 5,
        starts: vec![None; latches],
        bad: vec![],
        constraints: vec![],
        justice: vec![],
        fairness: vec![],
    }
}

/// A constant, or a literal of one of these.
pub fn edge(random: &mut Random, known: &[usize]) -> usize {
    let sign = random.below(2);
    if random.once_in(10) {
        return sign;
    }
    known[random.below(known.len())] + sign
}

/// As before, and often one of the last.
fn late_edge(random: &mut Random, known: &[usize]) -> usize {
    let late = if random.once_in(2) { 0 } else { known.len().saturating_sub(3) };
    edge(random, &known[late..])
}

/// Mostly a literal that is 0 at the start: one without negation, or a latch. Where nothing ever rises there is more to
/// prove.
fn calm(random: &mut Random, literal: usize, latches: &[usize]) -> usize {
    match random.below(8) {
        0 => literal,
        1..=3 => latches[random.below(latches.len())],
        _ => literal & !1,
    }
}

/// Lemmas over so many latches, most of whose literals hold at the start; a few have none.
fn lemmas(random: &mut Random, latches: usize, most: usize) -> Vec<Vec<i64>> {
    let mut lemmas: Vec<Vec<i64>> = Vec::new();
    for _ in 0..random.below(most + 1) {
        let equal = !lemmas.is_empty() && random.once_in(8);
        let literals = if random.once_in(20) { 0 } else { 1 + random.below(3) };
        let lemma = (0..literals).map(|_| latch(random, latches)).collect();
        lemmas.push(if equal { lemmas[random.below(lemmas.len())].clone() } else { lemma });
    }
    lemmas
}

fn latch(random: &mut Random, latches: usize) -> i64 {
    let latch = 1 + random.below(latches) as i64;
    if random.once_in(4) {
        latch
    } else {
        -latch
    }
}

pub fn shuffle<T>(random: &mut Random, list: &mut [T]) {
    for at in (1..list.len()).rev() {
        list.swap(at, random.below(at + 1));
    }
}

impl Drawn {
    /// The counts of the header after M.
    pub fn counts(&self) -> Vec<usize> {
        let older = [self.inputs.len(), self.latches.len(), self.outputs.len(), self.gates.len()];
        let newer = [self.bad.len(), self.constraints.len(), self.justice.len(), self.fairness.len()];
        [older, newer].concat()[..self.numbers - 1].to_vec()
    }

    /// The lines after the header, without symbols.
    pub fn rows(&self) -> Vec<Row> {
        let single = |literals: &[usize]| literals.iter().map(|&literal| Row::Literals(vec![literal])).collect();
        let latch =
            |(latch, start): (&[usize; 2], &Option<usize>)| Row::Literals(latch.iter().chain(start).copied().collect());
        let groups: [Vec<Row>; 9] = [
            single(&self.inputs),
            self.latches.iter().zip(&self.starts).map(latch).collect(),
            single(&self.outputs),
            single(&self.bad),
            single(&self.constraints),
            self.justice.iter().map(|literals| Row::Count(literals.len())).collect(),
            single(&self.justice.concat()),
            single(&self.fairness),
            self.gates.iter().map(|literals| Row::Literals(literals.to_vec())).collect(),
        ];
        groups.into_iter().flatten().collect()
    }

    /// The circuit text, without symbols.
    pub fn circuit(&self) -> String {
        let mut text = format!("aag {}", line(&[&[self.most], &self.counts()[..]].concat()));
        for row in self.rows() {
            text += &match row {
                Row::Literals(literals) => line(&literals),
                Row::Count(count) => line(&[count]),
            };
        }
        text
    }

    pub fn lemma_text(&self) -> String {
        self.lemmas.iter().map(|lemma| line(&[&lemma[..], &[0]].concat())).collect()
    }
}

fn line(numbers: &[impl ToString]) -> String {
    let words: Vec<String> = numbers.iter().map(|number| number.to_string()).collect();
    words.join(" ") + "\n"
}
