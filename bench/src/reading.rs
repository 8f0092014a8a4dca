//! How long a circuit text takes to be read: a usual one, and the worst within 65,536 bytes that are known.

use crate::library;
use std::os::raw::c_long;

const MOST: usize = 65_536;

extern "C" {
    fn clock() -> c_long;
}

/// The processor's time of this program so far, in microseconds: a call takes seconds here, and a machine at work would take turns with it.
fn spent() -> f64 {
    // SAFETY: the C library's clock takes nothing and writes nothing.
    (unsafe { clock() }) as f64
}

/// The best of several turns.
fn best(mut turn: impl FnMut()) -> f64 {
    let begun = spent();
    let mut best = f64::MAX;
    for turns in 0..200 {
        let start = spent();
        turn();
        best = best.min(spent() - start);
        if turns > 1 && spent() - begun > 1e6 {
            break;
        }
    }
    best
}

/// The lines of a text after its header, and the header's numbers; constraints make it one of edition 1.9.
#[derive(Default)]
struct Circuit {
    m: String,
    inputs: Vec<String>,
    outputs: Vec<String>,
    constraints: Vec<String>,
    gates: Vec<String>,
    symbols: Vec<String>,
}

impl Circuit {
    fn text(&self) -> Vec<u8> {
        let mut text = format!("aag {} {} 0 {} {}", self.m, self.inputs.len(), self.outputs.len(), self.gates.len());
        if !self.constraints.is_empty() {
            text += &format!(" 0 {}", self.constraints.len());
        }
        text += "\n";
        let first = self.inputs.iter().chain(&self.outputs).chain(&self.constraints);
        for line in first.chain(&self.gates).chain(&self.symbols) {
            text += line;
            text += "\n";
        }
        text.into_bytes()
    }
}

/// The largest of a family that grows with a number and has at most 65,536 bytes.
fn longest(family: impl Fn(usize) -> Circuit) -> Vec<u8> {
    let (mut fits, mut over) = (1, MOST);
    while over - fits > 1 {
        let half = (fits + over) / 2;
        if family(half).text().len() <= MOST {
            fits = half;
        } else {
            over = half;
        }
    }
    family(fits).text()
}

fn even(from: usize, count: usize) -> Vec<String> {
    (from..from + count).map(|variable| (2 * variable).to_string()).collect()
}

/// Thousands of inputs: each is looked for among those before it.
fn inputs() -> Vec<u8> {
    longest(|count| Circuit { m: count.to_string(), inputs: even(1, count), ..Circuit::default() })
}

/// A chain of gates, the last of which is the first that can be worked out.
pub fn backwards() -> Vec<u8> {
    longest(|count| {
        let gate = |at: usize| format!("{} {} 1", 2 * at, 2 * (at + 1) % (2 * count + 2));
        Circuit { m: count.to_string(), gates: (1..=count).map(gate).collect(), ..Circuit::default() }
    })
}

/// Gates that all use the last one twice.
fn of_the_last() -> Vec<u8> {
    longest(|count| {
        let mut gates: Vec<String> = (2..=count).map(|at| format!("{} 2 2", 2 * at)).collect();
        gates.push("2 0 0".to_string());
        Circuit { m: count.to_string(), gates, ..Circuit::default() }
    })
}

/// Thousands of inputs, and a gate at the end that defines the first of them again.
fn both_ends() -> Vec<u8> {
    longest(|count| {
        let inputs = even(1, count);
        Circuit { m: (count + 1).to_string(), inputs, gates: vec!["2 0 0".to_string()], ..Circuit::default() }
    })
}

/// Outputs of two bytes that all use the last of many inputs.
fn outputs() -> Vec<u8> {
    longest(|count| {
        let mut inputs = even(2, count / 2);
        inputs.push("2".to_string());
        let m = inputs.len().to_string();
        Circuit { m, inputs, outputs: vec!["2".to_string(); count], ..Circuit::default() }
    })
}

/// Constraints in their place.
fn constraints() -> Vec<u8> {
    longest(|count| {
        let mut inputs = even(2, count / 2);
        inputs.push("2".to_string());
        let m = inputs.len().to_string();
        Circuit { m, inputs, constraints: vec!["2".to_string(); count], ..Circuit::default() }
    })
}

/// As many symbols as outputs of two bytes.
fn symbols() -> Vec<u8> {
    longest(|count| {
        let symbols = (0..count).map(|at| format!("o{at} a")).collect();
        Circuit { m: "0".to_string(), outputs: vec!["0".to_string(); count], symbols, ..Circuit::default() }
    })
}

/// M of 30,000 digits, and inputs of few.
fn long_header() -> Vec<u8> {
    longest(|count| Circuit { m: "9".repeat(30_000), inputs: even(1, count), ..Circuit::default() })
}

/// M of 30,000 digits, and inputs that do not fit a word.
fn long_numbers() -> Vec<u8> {
    longest(|count| {
        let inputs = (0..count).map(|at| format!("1{at:020}0")).collect();
        Circuit { m: "9".repeat(30_000), inputs, ..Circuit::default() }
    })
}

/// M of 25 digits, and inputs that do not fit a word, so that any two are compared digit by digit.
fn far_numbers() -> Vec<u8> {
    longest(|count| {
        let inputs = (0..count).map(|at| format!("2{at:018}0")).collect();
        Circuit { m: "9".repeat(25), inputs, ..Circuit::default() }
    })
}

fn stored(name: &str) -> Vec<u8> {
    let folder = concat!(env!("CARGO_MANIFEST_DIR"), "/../cases/circuits/");
    std::fs::read(format!("{folder}{name}")).expect("a stored circuit")
}

/// A line for each text: its bytes, the number of its answer, its time, and that over the usual text's.
pub fn lines() {
    println!("how long a check takes of a usual circuit, and of the worst texts within 65,536 bytes");
    println!("{:<18} {:>7} {:>6} {:>14} {:>10}", "text", "bytes", "number", "proved, us", "of loader");
    let (loader, lemmas) = (stored("loader.aag"), stored("loader.lemmas"));
    let usual = line("loader", &loader, &lemmas, None);
    for (name, pair) in [("assumed", "assumed"), ("most clauses", "read/newer-most")] {
        line(name, &stored(&format!("{pair}.aag")), &stored(&format!("{pair}.lemmas")), Some(usual));
    }
    let texts: [(&str, Vec<u8>); 10] = [
        ("inputs", inputs()),
        ("both ends", both_ends()),
        ("gates back", backwards()),
        ("gates of the last", of_the_last()),
        ("outputs", outputs()),
        ("constraints", constraints()),
        ("symbols", symbols()),
        ("long header", long_header()),
        ("long numbers", long_numbers()),
        ("far numbers", far_numbers()),
    ];
    for (name, text) in texts {
        line(name, &text, &[], Some(usual));
    }
}

fn line(name: &str, circuit: &[u8], lemmas: &[u8], usual: Option<f64>) -> f64 {
    let number = library::circuit_check(circuit, lemmas)[0];
    let time = best(|| {
        library::circuit_check(circuit, lemmas);
    });
    println!("{name:<18} {:>7} {number:>6} {time:>14.1} {:>10.1}", circuit.len(), time / usual.unwrap_or(time));
    time
}
