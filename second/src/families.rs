//! Families of problems that grow: counters, token rings, an arbiter. Each has lemmas that are needed,
//! lemmas that can go, and lemmas that do not hold. The loader has a file of its own.

use crate::circuit::Circuit;
use crate::file::Problem;
use crate::loader::loader;

/// A family: its name, what it is, its generator and the sizes that are stored.
pub struct Family {
    pub name: &'static str,
    pub line: &'static str,
    pub make: fn(usize) -> Problem,
    pub sizes: &'static [usize],
}

pub const FAMILIES: [Family; 4] = [
    Family {
        name: "counter",
        line: "a counter of so many bits that starts again after its top bit, which stands alone; a lemma \
               for each lower bit is needed, the lowest in one of two forms; one can go, one fails \
               initiation, one its step",
        make: counter,
        sizes: &[2, 3, 4, 6, 8],
    },
    Family {
        name: "ring",
        line: "a ring of so many stations with one token; every pair lemma is needed, \
               that some station has it can go, that the last has not does not hold",
        make: ring,
        sizes: &[2, 3, 4, 5, 6],
    },
    Family {
        name: "arbiter",
        line: "an arbiter of so many clients, two by two; for each two either their pair lemma or two \
               lemmas about a side bit are needed, so the rows double with every two clients",
        make: arbiter,
        sizes: &[2, 4, 6],
    },
    Family {
        name: "loader",
        line: "the calibration loader with its ledger, words of so many bits; a latch remembers a bad state, \
               and lemmas about phase, verdict and ledger carry the argument",
        make: loader,
        sizes: &[1, 2],
    },
];

/// The counter counts where its input says so; with its top bit set it goes back to 0.
pub fn counter(bits: usize) -> Problem {
    let mut circuit = Circuit::new(bits);
    let top = bits as i16;
    let go = circuit.input();
    let again = circuit.and(&[top, go]);
    let mut carry = go;
    for v in 1..=top {
        let sum = circuit.differ(v, carry);
        carry = circuit.and(&[v, carry]);
        let value = circuit.and(&[sum, -again]);
        circuit.next(v, value);
    }
    circuit.problem.bad = vec![vec![top], (1..top).collect()];
    let below = (top - 1).max(1);
    circuit.lemma(&[1, top]);
    circuit.lemma(&[-1, -below, -top]);
    for v in 1..top {
        circuit.lemma(&[-top, -v]);
    }
    circuit.lemma(&[-1, -top, -1]);
    circuit.lemma(&[-below]);
    circuit.problem
}

/// A station with the token keeps it or passes it on, as its input says.
pub fn ring(stations: usize) -> Problem {
    let mut circuit = Circuit::new(stations);
    let last = stations as i16;
    circuit.problem.init[0] = vec![1];
    let pass: Vec<i16> = (0..stations).map(|_| circuit.input()).collect();
    for v in 1..=last {
        let before = if v == 1 { last } else { v - 1 };
        let kept = circuit.and(&[v, -pass[v as usize - 1]]);
        let taken = circuit.and(&[before, pass[before as usize - 1]]);
        let value = circuit.or(&[kept, taken]);
        circuit.next(v, value);
    }
    circuit.problem.bad = vec![vec![1], vec![2]];
    for v in 1..=last {
        for w in v + 1..=last {
            circuit.lemma(&[-v, -w]);
        }
    }
    circuit.lemma(&(1..=last).collect::<Vec<i16>>());
    circuit.lemma(&[-last]);
    circuit.problem
}

/// A grant is kept as long as its client holds it; only when there is none, the first client that
/// asks gets one, and the side bit of its two says which it was.
pub fn arbiter(clients: usize) -> Problem {
    let twos = clients / 2;
    let mut circuit = Circuit::new(clients + twos);
    let all: Vec<i16> = (1..=clients as i16).collect();
    let hold = circuit.input();
    let none: Vec<i16> = all.iter().map(|grant| -grant).collect();
    let mut free = circuit.and(&none);
    let mut given = Vec::new();
    for &grant in &all {
        let asks = circuit.input();
        let new = circuit.and(&[free, asks]);
        free = circuit.and(&[free, -asks]);
        let kept = circuit.and(&[grant, hold]);
        let value = circuit.or(&[new, kept]);
        circuit.next(grant, value);
        given.push(new);
    }
    let mut terms = Vec::new();
    for two in 0..twos {
        let (a, b) = (all[2 * two], all[2 * two + 1]);
        let side = (clients + two + 1) as i16;
        let kept = circuit.and(&[side, -given[2 * two]]);
        let value = circuit.or(&[given[2 * two + 1], kept]);
        circuit.next(side, value);
        circuit.lemma(&[-a, -b]);
        circuit.lemma(&[-a, -side]);
        circuit.lemma(&[-b, side]);
        terms.push(vec![a, b]);
    }
    circuit.lemma(&[-1]);
    circuit.bad_where(&terms);
    circuit.problem
}
