//! Pairs of texts at the limits and one past them, chains of gates written backwards, and circles.

use crate::circuit_faults_late::{counted, padded};
use crate::circuit_sample::PLAIN;
use crate::file::Problem;
use crate::random::Random;

/// A circuit text and a lemma text.
pub type Pair = [Vec<u8>; 2];

pub fn pair(circuit: String, lemmas: String) -> Pair {
    [circuit.into_bytes(), lemmas.into_bytes()]
}

/// As much as one of the limits allows, or one more; sometimes with a fault besides.
pub fn limit_pair(random: &mut Random) -> Pair {
    let more = random.below(2);
    let lemmas = ["", "1 0\n", "-1 1 0\n", "x\n", "0\n1"][random.below(5)].to_string();
    let bytes = Problem::FILE_BYTES + more;
    let [circuit, lemmas] = match random.below(9) {
        0 => pair(counted(random.below(3), (96 + more) * random.below(2), 1), lemmas),
        1 => pair(helpers(random, 320 + more), lemmas),
        2 => pair(counted(1, 1, random.below(3)), lemmas),
        3 => pair(PLAIN.to_string(), "-1 0\n".repeat(128 + more) + &lemmas),
        4 => pair(PLAIN.to_string(), "-1 ".repeat(64 + more) + "0\n" + &lemmas),
        5 => pair(long_circuit(random, bytes), lemmas),
        6 => pair(padded(PLAIN, bytes), lemmas),
        7 => pair(PLAIN.to_string(), "0".repeat(bytes - 1 - lemmas.len()) + "\n" + &lemmas),
        _ => pair(PLAIN.to_string(), "1 ".repeat((bytes - 2) / 2) + "0\n"),
    };
    match random.below(6) {
        0 => [[&circuit[..], b"x\n"].concat(), lemmas],
        1 => [circuit, [&lemmas[..], b"2\n"].concat()],
        _ => [circuit, lemmas],
    }
}

/// So many inputs and gates together, each gate of two variables before it.
fn helpers(random: &mut Random, helpers: usize) -> String {
    let inputs = [0, 1, helpers / 2, helpers - 1, helpers][random.below(5)];
    let gates = helpers - inputs;
    let mut text = format!("aag {} {inputs} 1 1 {gates}\n", helpers + 1);
    text.extend((2..inputs + 2).map(|v| format!("{}\n", 2 * v)));
    text += &format!("2 {}\n{}\n", 2 * (helpers + 1), random.below(4));
    for v in inputs + 2..helpers + 2 {
        text += &format!("{} {} {}\n", 2 * v, 2 + random.below(2 * v - 2), 2 + random.below(2 * v - 2));
    }
    text
}

/// A text of about so many bytes without a comment: symbols, or zeros, and what only a shorter text is judged for.
fn long_circuit(random: &mut Random, bytes: usize) -> String {
    let texts = [
        PLAIN,
        "aag 3 1 1 1 1\n2\n4 2\n4\n2 4 5\n",
        "aag 4 1 1 1 1\n2\n4 8\n4\n6 2 5\n",
        "aag 3 1 1 1 1\n2\n4 6\n4\n6 6 5\n",
    ];
    let text = texts[random.below(4)];
    let symbols = ["", "i0 x\ni0 y\n", "l0 x\no0\n"][random.below(3)];
    let start = format!("{text}{symbols}l0 ");
    let end = ["x\n", "x", "\n"][random.below(3)];
    format!("{start}{}{end}", "-".repeat(bytes - start.len() - end.len()))
}

/// A chain of gates with an input 2 and a latch 4: M, what is next for the latch, a literal for the output, and the
/// lines of the gates.
pub struct Chain {
    pub most: usize,
    pub next: usize,
    pub output: usize,
    pub gates: Vec<String>,
}

/// A chain as a circuit with one output.
pub fn chain_pair(random: &mut Random) -> Pair {
    let gates = match random.below(40) {
        0 => 3_000 + random.below(1_000),
        1..=4 => 319 + random.below(3),
        _ => 1 + random.below(40),
    };
    let Chain { most, next, output, gates } = chain(random, gates);
    let circuit = format!("aag {most} 1 1 1 {}\n2\n4 {next}\n{output}\n{}", gates.len(), gates.concat());
    pair(circuit, ["", "-1 0\n", "1 -0\n"][random.below(3)].to_string())
}

/// A chain of so many gates, each used before its line, or mostly so. Its end is a latch, or nothing defines it, or it
/// is one of the chain.
pub fn chain(random: &mut Random, gates: usize) -> Chain {
    let literal = |at: usize| 2 * (at + 3);
    let end = match random.below(6) {
        0 => literal(gates),
        1 => literal(random.below(gates)),
        2 => literal(gates - 1),
        _ => 4,
    };
    let mut lines = Vec::new();
    for at in 0..gates {
        let from = if at + 1 == gates { end } else { literal(at + 1) };
        let other = [1, 2, 3, 4, literal(gates - 1)][random.below(if gates < 300 { 5 } else { 4 })];
        lines.push(format!("{} {} {other}\n", literal(at), from + random.below(2)));
    }
    match random.below(4) {
        0 => lines.reverse(),
        1 => lines.swap(0, gates - 1),
        _ => {}
    }
    let output = literal(random.below(gates + 1));
    let next = literal(random.below(gates));
    Chain { most: gates + 3, next, output, gates: lines }
}
