//! The calibration loader with its ledger, as a family by the width of its words.

use crate::circuit::Circuit;
use crate::file::Problem;

/// The latches. The phases are idle (00), receive (10), check (01) and done (11), as low and high.
struct Latches {
    low: i16,
    high: i16,
    good: i16,
    alarm: i16,
    applied: i16,
    seen: i16,
    sum: Vec<i16>,
    received: Vec<i16>,
    used: Vec<i16>,
}

impl Latches {
    fn of(width: usize) -> Latches {
        let word = |at: usize| (0..width).map(|bit| (7 + at * width + bit) as i16).collect();
        Latches {
            low: 1,
            high: 2,
            good: 3,
            alarm: 4,
            applied: 5,
            seen: 6,
            sum: word(0),
            received: word(1),
            used: word(2),
        }
    }
}

/// A file arrives word by word and its checksum is compared; then it is applied, or the alarm says
/// so. The ledger holds what was received and what is used. The latch `seen` remembers a bad state:
/// done without a verdict, applied under an alarm, or applied and yet not in use.
pub fn loader(width: usize) -> Problem {
    let latches = Latches::of(width);
    let mut circuit = Circuit::new(6 + 3 * width);
    let start = circuit.input();
    let begins = circuit.and(&[-latches.low, -latches.high, start]);
    let receives = circuit.and(&[latches.low, -latches.high]);
    let checks = circuit.and(&[-latches.low, latches.high]);
    let done = circuit.and(&[latches.low, latches.high]);
    let request = circuit.input();
    let applies = circuit.and(&[done, latches.good, request]);
    phases(&mut circuit, &latches, [begins, receives, checks, done]);
    let matches = checksum(&mut circuit, &latches, begins, receives);
    verdict(&mut circuit, &latches, begins, [checks, matches], applies);
    ledger(&mut circuit, &latches, begins, applies);
    remember(&mut circuit, &latches, done);
    candidates(&mut circuit, &latches);
    circuit.problem.bad = vec![vec![latches.seen]];
    circuit.problem
}

fn phases(circuit: &mut Circuit, latches: &Latches, [begins, receives, checks, done]: [i16; 4]) {
    let last = circuit.input();
    let leaves = circuit.input();
    let stays = circuit.and(&[done, -leaves]);
    let more = circuit.and(&[receives, -last]);
    let ends = circuit.and(&[receives, last]);
    let low = circuit.or(&[begins, more, checks, stays]);
    let high = circuit.or(&[ends, checks, stays]);
    circuit.next(latches.low, low);
    circuit.next(latches.high, high);
}

/// The running sum of the words; gives whether it is the checksum that came with the file.
fn checksum(circuit: &mut Circuit, latches: &Latches, begins: i16, receives: i16) -> i16 {
    let mut wrong = Vec::new();
    for &bit in &latches.sum {
        let word = circuit.input();
        let added = circuit.and(&[receives, word]);
        let sum = circuit.differ(bit, added);
        let value = circuit.and(&[sum, -begins]);
        circuit.next(bit, value);
        let wanted = circuit.input();
        wrong.push(circuit.differ(bit, wanted));
    }
    -circuit.or(&wrong)
}

fn verdict(circuit: &mut Circuit, latches: &Latches, begins: i16, test: [i16; 2], applies: i16) {
    let [checks, matches] = test;
    let passes = circuit.and(&[checks, matches]);
    let fails = circuit.and(&[checks, -matches]);
    let sets = [(latches.good, passes), (latches.alarm, fails), (latches.applied, applies)];
    for (latch, set) in sets {
        let kept = circuit.and(&[latch, -begins]);
        let value = circuit.or(&[kept, set]);
        circuit.next(latch, value);
    }
}

fn ledger(circuit: &mut Circuit, latches: &Latches, begins: i16, applies: i16) {
    for (&received, &used) in latches.received.iter().zip(&latches.used) {
        let new = circuit.input();
        let value = circuit.choose(begins, new, received);
        circuit.next(received, value);
        let value = circuit.choose(applies, received, used);
        circuit.next(used, value);
    }
}

fn remember(circuit: &mut Circuit, latches: &Latches, done: i16) {
    let mut bad =
        vec![circuit.and(&[done, -latches.good, -latches.alarm]), circuit.and(&[latches.applied, latches.alarm])];
    for (&received, &used) in latches.received.iter().zip(&latches.used) {
        let other = circuit.differ(received, used);
        bad.push(circuit.and(&[latches.applied, other]));
    }
    let seen = circuit.or(&bad);
    circuit.next(latches.seen, seen);
}

fn candidates(circuit: &mut Circuit, latches: &Latches) {
    let Latches { low, high, good, alarm, applied, seen, .. } = *latches;
    // No verdict before the check; a verdict when done; never two; applied only what is good.
    circuit.lemma(&[-low, high, -good]);
    circuit.lemma(&[-low, high, -alarm]);
    circuit.lemma(&[low, -high, -good]);
    circuit.lemma(&[low, -high, -alarm]);
    circuit.lemma(&[-low, -high, good, alarm]);
    circuit.lemma(&[-good, -alarm]);
    circuit.lemma(&[-applied, good]);
    // What is used is what was received, bit by bit; and a bit of the sum, which says nothing.
    for (&received, &used) in latches.received.iter().zip(&latches.used) {
        circuit.lemma(&[-applied, -received, used]);
        circuit.lemma(&[-applied, received, -used]);
    }
    for &bit in &latches.sum {
        circuit.lemma(&[-bit, -alarm]);
    }
    // The same another way: applied never meets the alarm, and not before the check is done.
    circuit.lemma(&[-applied, -alarm]);
    circuit.lemma(&[-low, high, -applied]);
    circuit.lemma(&[-seen]);
}
