//! Pairs of texts of edition 1.9 at the limits and one past them, most of them short, and chains of gates.

use crate::circuit_faults_late::padded;
use crate::circuit_limits::{chain, pair, Chain, Pair};
use crate::circuit_sample::NEWER;
use crate::file::Problem;
use crate::random::Random;

/// As much as one of the limits allows, or one more; sometimes with a fault or with fairness besides.
pub fn newer_limit_pair(random: &mut Random) -> Pair {
    let more = random.below(2);
    let lemmas = ["", "1 0\n", "-1 1 0\n", "-1 0\n1 0\n", "x\n", "0\n1"][random.below(6)].to_string();
    let [circuit, lemmas] = match random.below(10) {
        0..=3 => pair(many_constraints(random), lemmas),
        4 => pair(latches(random, 96 + more), lemmas),
        5 => pair(counts(random), lemmas),
        6 => pair(counts(random), "1 0\n".repeat(128 + more) + &lemmas),
        7 => pair(counts(random), "1 ".repeat(64 + more) + "0\n" + &lemmas),
        8 => pair(padded(&counts(random), Problem::FILE_BYTES + more), lemmas),
        _ => pair(long_circuit(random, Problem::FILE_BYTES + more), lemmas),
    };
    match random.below(8) {
        0 => [[&circuit[..], b"x\n"].concat(), lemmas],
        1 => [circuit, [&lemmas[..], b"2\n"].concat()],
        _ => [circuit, lemmas],
    }
}

/// One latch and so many constraints that the clauses are 4,096 or a few more or less; some constraints have none.
fn many_constraints(random: &mut Random) -> String {
    let start = ["", " 0", " 1", " 2"][random.below(4)];
    let counted = 2_044 + random.below(5);
    let dropped = [0, 0, 1, 30][random.below(4)];
    let literals = [&[0][..], &[2], &[3], &[2, 3, 0]][random.below(4)];
    let mut lines: Vec<usize> = (0..counted).map(|at| literals[at % literals.len()]).collect();
    lines.extend(vec![1; dropped]);
    let fairness = random.once_in(12) as usize;
    let mut text = format!("aag 1 0 1 0 0 1 {} 0 {fairness}\n2 2{start}\n{}\n", lines.len(), random.below(4));
    text.extend(lines.iter().map(|literal| format!("{literal}\n")));
    text + &"2\n".repeat(fairness)
}

/// So many latches with any starts, and a bad literal.
fn latches(random: &mut Random, latches: usize) -> String {
    let mut text = format!("aag {latches} 0 {latches} 0 0 1\n");
    for v in 1..=latches {
        let start = ["", " 0", " 1", &format!(" {}", 2 * v)][random.below(4)].to_string();
        text += &format!("{} {}{start}\n", 2 * v, 2 + random.below(2 * latches));
    }
    text + "2\n"
}

/// One latch, with up to two of everything else that is counted.
fn counts(random: &mut Random) -> String {
    let few = |random: &mut Random| [0, 0, 0, 1, 2][random.below(5)];
    let [outputs, bad] = [[0, 1], [1, 0], [0, 1], [few(random), few(random)]][random.below(4)];
    let constraints = random.below(3);
    let [justice, fairness] = if random.once_in(4) { [few(random), few(random)] } else { [0, 0] };
    let mut text = format!("aag 1 0 1 {outputs} 0 {bad} {constraints} {justice} {fairness}\n2 3 2\n");
    text.extend((0..outputs + bad + constraints).map(|_| format!("{}\n", 2 + random.below(2))));
    let sizes: Vec<usize> = (0..justice).map(|_| [0, 1, 2, 5][random.below(4)]).collect();
    text.extend(sizes.iter().map(|size| format!("{size}\n")));
    text + &"3\n".repeat(sizes.iter().sum::<usize>() + fairness)
}

/// A text of so many bytes without a comment, and what only a shorter text is judged for.
fn long_circuit(random: &mut Random, bytes: usize) -> String {
    let undefined = NEWER.replace("aag 3", "aag 4").replace("\n3\n", "\n8\n");
    let circle = NEWER.replace("\n6 2 5\n", "\n6 2 6\n");
    let twice = NEWER.replace("\n6 2 5\n", "\n4 2 2\n").replace("4 6 4", "4 2 4");
    let text = [NEWER, &undefined, &circle, &twice][random.below(4)];
    let symbols = ["", "c0 x\nc0 y\n", "b0 x\nc0\n"][random.below(3)];
    let start = format!("{text}{symbols}l0 ");
    let end = ["x\n", "x", "\n"][random.below(3)];
    format!("{start}{}{end}", "-".repeat(bytes - start.len() - end.len()))
}

/// A chain of gates with a bad literal and a constraint of it.
pub fn newer_chain_pair(random: &mut Random) -> Pair {
    let gates = if random.once_in(20) { 319 + random.below(3) } else { 1 + random.below(40) };
    let Chain { most, next, output, gates } = chain(random, gates);
    let start = ["", " 1", " 4"][random.below(3)];
    let constraint = 2 * (3 + random.below(gates.len())) + random.below(2);
    let count = gates.len();
    let circuit =
        format!("aag {most} 1 1 0 {count} 1 1\n2\n4 {next}{start}\n{output}\n{constraint}\n{}", gates.concat());
    pair(circuit, ["", "-1 0\n", "1 -0\n"][random.below(3)].to_string())
}
