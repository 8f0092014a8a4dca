//! Over random small circuits the problem has the circuit's start states, steps and bad states, and the jobs give what
//! the definitions say of the circuit itself.

use crate::simulate::{constrained, simulated, value};
use crate::walk::Walk;
use second::circuit_jobs::{call, CircuitJob};
use second::circuit_problem::read;
use second::circuit_random::{circuit, Drawn, SMALL_CIRCUIT};
use second::circuit_random_newer::newer_circuit;
use second::file::{self, Problem};
use second::jobs::Report;
use second::mutants::Rules;
use second::random::Random;

const CIRCUITS: usize = 4_000;
const SEED: u64 = 20_260_202;
const UNTOUCHED: u8 = 0xA5;
/// The least circuits with each oddity.
const LEAST: usize = 100;

/// Circuits of edition 2007.
fn older_circuits() -> Vec<Drawn> {
    let mut random = Random(SEED);
    (0..CIRCUITS).map(|_| circuit(&mut random, SMALL_CIRCUIT)).collect()
}

/// Circuits of edition 1.9.
fn newer_circuits() -> Vec<Drawn> {
    let mut random = Random(SEED);
    (0..CIRCUITS).map(|_| newer_circuit(&mut random, SMALL_CIRCUIT)).collect()
}

fn circuits() -> Vec<Drawn> {
    [older_circuits(), newer_circuits()].concat()
}

fn done(circuit: &Drawn, job: CircuitJob, space: usize) -> (Report, Vec<u8>) {
    let (text, lemmas) = (circuit.circuit(), circuit.lemma_text());
    let mut lent = vec![UNTOUCHED; space];
    let report = call(job, [text.as_bytes(), lemmas.as_bytes()], u32::MAX, &mut lent, Rules::TRUE);
    (report, lent)
}

fn marks(set: &[bool]) -> Vec<u8> {
    set.iter().map(|&inside| inside as u8).collect()
}

fn built(circuit: &Drawn) -> Problem {
    read(circuit.circuit().as_bytes(), circuit.lemma_text().as_bytes(), Rules::TRUE).expect("the texts are read")
}

#[test]
fn the_problem_has_the_start_states_steps_and_bad_states_of_the_circuit() {
    for circuit in circuits() {
        let (walk, found) = (simulated(&circuit), Walk::of(&built(&circuit)));
        assert_eq!(found.init, walk.init, "{circuit:?}");
        assert_eq!(found.steps, walk.steps, "{circuit:?}");
        assert_eq!(found.bad, walk.bad, "{circuit:?}");
        assert_eq!(found.lemmas, walk.lemmas, "{circuit:?}");
    }
}

#[test]
fn a_circuit_of_2007_gives_the_same_problem_in_the_words_of_edition_1_9() {
    for circuit in older_circuits() {
        let problem = built(&circuit);
        let starts = vec![Some(0); circuit.latches.len()];
        let bad = Drawn { bad: circuit.outputs.clone(), outputs: vec![], ..circuit.clone() };
        for numbers in 6..=9 {
            assert_eq!(built(&Drawn { numbers, ..circuit.clone() }), problem, "{circuit:?}");
            assert_eq!(built(&Drawn { numbers, starts: starts.clone(), ..circuit.clone() }), problem, "{circuit:?}");
            assert_eq!(built(&Drawn { numbers, ..bad.clone() }), problem, "{circuit:?}");
        }
    }
}

#[test]
fn the_sizes_and_the_written_file_are_those_of_the_problem() {
    for circuit in circuits() {
        let problem = built(&circuit);
        let (n, m) = (circuit.latches.len() as u64, (circuit.inputs.len() + circuit.gates.len()) as u64);
        let sizes = Report { n, m, k: circuit.lemmas.len() as u64, ..Report::default() };
        assert_eq!(done(&circuit, CircuitJob::Check, 0).0, sizes, "{circuit:?}");
        let bytes = problem.to_bytes();
        let told = Report { rows: bytes.len() as u64, ..sizes };
        assert_eq!(done(&circuit, CircuitJob::Problem, bytes.len()), (told, bytes.clone()), "{circuit:?}");
        assert_eq!(file::read(&bytes, Rules::TRUE), Ok(problem), "{circuit:?}");
    }
}

#[test]
fn the_jobs_give_the_sets_of_the_circuit_by_definition() {
    for circuit in circuits() {
        let walk = simulated(&circuit);
        let k = circuit.lemmas.len();
        let (report, lent) = done(&circuit, CircuitJob::Largest, k);
        assert_eq!((report.number, lent), (0, marks(&walk.largest())), "{circuit:?}");
        let rows = walk.minimal_sets();
        let number = if rows.is_empty() { 11 } else { 0 };
        let (report, lent) = done(&circuit, CircuitJob::One, k);
        let one = rows.last().map_or(vec![UNTOUCHED; k], |set| marks(set));
        assert_eq!((report.number, lent), (number, one), "{circuit:?}");
        let bytes = marks(&rows.concat());
        let (report, lent) = done(&circuit, CircuitJob::List, bytes.len());
        assert_eq!((report.number, report.rows as usize, lent), (number, rows.len(), bytes), "{circuit:?}");
        assert!(rows.is_empty() || !walk.reaches_bad(), "{circuit:?}");
    }
}

/// All literals that are used, but for the output.
fn used(circuit: &Drawn) -> Vec<usize> {
    let next = circuit.latches.iter().map(|latch| latch[1]);
    next.chain(circuit.gates.iter().flat_map(|gate| [gate[1], gate[2]])).collect()
}

fn gate_used_before_its_line(circuit: &Drawn) -> bool {
    let later = |at: usize, literal: usize| circuit.gates[at..].iter().any(|gate| gate[0] == literal & !1);
    circuit.gates.iter().enumerate().any(|(at, gate)| later(at, gate[1]) || later(at, gate[2]))
}

#[test]
fn the_circuits_hold_every_oddity_and_every_ending() {
    let all = older_circuits();
    let count = |test: &dyn Fn(&Drawn) -> bool| all.iter().filter(|circuit| test(circuit)).count();
    let some_gate = |circuit: &Drawn, test: &dyn Fn(usize, usize) -> bool| {
        circuit.gates.iter().any(|gate| test(gate[1], gate[2]) || test(gate[2], gate[1]))
    };
    let unused = |circuit: &Drawn, literals: &[usize]| {
        let used = [used(circuit), circuit.outputs.clone()].concat();
        literals.iter().any(|literal| used.iter().all(|used| used & !1 != *literal))
    };
    let gates = |circuit: &Drawn| circuit.gates.iter().map(|gate| gate[0]).collect::<Vec<usize>>();
    let counts = [
        count(&|circuit| some_gate(circuit, &|a, _| a == 0)),
        count(&|circuit| some_gate(circuit, &|a, _| a == 1)),
        count(&|circuit| some_gate(circuit, &|a, b| a < 2 && b < 2)),
        count(&|circuit| circuit.latches.iter().any(|latch| latch[1] < 2)),
        count(&|circuit| circuit.outputs[0] == 0),
        count(&|circuit| circuit.outputs[0] == 1),
        count(&|circuit| used(circuit).iter().any(|literal| *literal > 1 && literal % 2 == 1)),
        count(&|circuit| circuit.outputs[0] > 1 && circuit.outputs[0] % 2 == 1),
        count(&|circuit| some_gate(circuit, &|a, b| a == b)),
        count(&|circuit| some_gate(circuit, &|a, b| a == b ^ 1)),
        count(&gate_used_before_its_line),
        count(&|circuit| unused(circuit, &circuit.inputs)),
        count(&|circuit| unused(circuit, &gates(circuit))),
        count(&|circuit| circuit.inputs.is_empty()),
        count(&|circuit| circuit.gates.is_empty()),
        count(&|circuit| !circuit.inputs.is_sorted()),
        count(&|circuit| !circuit.latches.is_sorted()),
        count(&|circuit| circuit.most > circuit.inputs.len() + circuit.latches.len() + circuit.gates.len()),
        count(&|circuit| circuit.lemmas.is_empty()),
        count(&|circuit| circuit.lemmas.iter().any(|lemma| lemma.is_empty())),
        count(&|circuit| simulated(circuit).minimal_sets().is_empty()),
        count(&|circuit| simulated(circuit).minimal_sets().len() > 1),
        count(&|circuit| simulated(circuit).minimal_sets().first().is_some_and(|set| set.contains(&true))),
        count(&|circuit| simulated(circuit).reaches_bad()),
    ];
    println!("{counts:?}");
    assert!(counts.iter().all(|&found| found >= LEAST), "{counts:?}");
}

/// The same circuit without its constraints.
fn unconstrained(circuit: &Drawn) -> Drawn {
    Drawn { constraints: vec![], ..circuit.clone() }
}

/// Whether in some state with this property no inputs let every constraint be 1.
fn stuck(circuit: &Drawn, property: impl Fn(usize) -> bool) -> bool {
    let states = 0..1 << circuit.latches.len();
    states.into_iter().any(|state| {
        property(state) && (0..1 << circuit.inputs.len()).all(|inputs| !constrained(circuit, state, inputs))
    })
}

/// Whether the literal can be 1 in some state, and the constraints too, but never both for one choice of inputs.
fn bad_and_constraints_apart(circuit: &Drawn) -> bool {
    let literal = *circuit.bad.first().unwrap_or_else(|| &circuit.outputs[0]);
    let some = |test: &dyn Fn(usize) -> bool| (0..1 << circuit.inputs.len()).any(test);
    (0..1 << circuit.latches.len()).any(|state: usize| {
        let bad = |inputs: usize| value(circuit, literal, state, inputs);
        let free = |inputs: usize| constrained(circuit, state, inputs);
        some(&bad) && some(&free) && !some(&|inputs| bad(inputs) && free(inputs))
    })
}

#[test]
fn the_circuits_of_edition_1_9_hold_every_oddity_and_every_ending() {
    let all = newer_circuits();
    let count = |test: &dyn Fn(&Drawn) -> bool| all.iter().filter(|circuit| test(circuit)).count();
    let starts_at = |circuit: &Drawn, start: usize| circuit.starts.contains(&Some(start));
    let at_itself = |circuit: &Drawn| circuit.latches.iter().any(|latch| starts_at(circuit, latch[0]));
    let is = |literals: &[usize], defined: &[usize]| literals.iter().any(|literal| defined.contains(&(literal & !1)));
    let latches = |circuit: &Drawn| circuit.latches.iter().map(|latch| latch[0]).collect::<Vec<usize>>();
    let gates = |circuit: &Drawn| circuit.gates.iter().map(|gate| gate[0]).collect::<Vec<usize>>();
    let rows = |circuit: &Drawn| simulated(circuit).minimal_sets();
    let counts = [
        count(&|circuit| circuit.numbers == 6),
        count(&|circuit| circuit.numbers == 7),
        count(&|circuit| circuit.numbers == 8),
        count(&|circuit| circuit.numbers == 9),
        count(&|circuit| circuit.starts.contains(&None)),
        count(&|circuit| starts_at(circuit, 0)),
        count(&|circuit| starts_at(circuit, 1)),
        count(&at_itself),
        count(&|circuit| circuit.bad.len() == 1 && circuit.outputs.is_empty()),
        count(&|circuit| circuit.bad.is_empty() && circuit.outputs.len() == 1),
        count(&|circuit| circuit.bad.contains(&0)),
        count(&|circuit| circuit.bad.contains(&1)),
        count(&|circuit| circuit.constraints.is_empty()),
        count(&|circuit| circuit.constraints.len() > 1),
        count(&|circuit| circuit.constraints.contains(&0)),
        count(&|circuit| circuit.constraints.contains(&1)),
        count(&|circuit| is(&circuit.constraints, &circuit.inputs)),
        count(&|circuit| is(&circuit.constraints, &latches(circuit))),
        count(&|circuit| is(&circuit.constraints, &gates(circuit))),
        count(&|circuit| circuit.constraints.windows(2).any(|two| two[0] == two[1])),
        // Constraints cut off some steps, some bad states, every step of some state, the start, and everything.
        count(&|circuit| simulated(circuit).steps != simulated(&unconstrained(circuit)).steps),
        count(&|circuit| simulated(circuit).bad != simulated(&unconstrained(circuit)).bad),
        count(&bad_and_constraints_apart),
        count(&|circuit| stuck(circuit, |_| true) && !simulated(circuit).steps.is_empty()),
        count(&|circuit| stuck(circuit, |state| simulated(circuit).init[state])),
        count(&|circuit| simulated(circuit).steps.is_empty() && !simulated(circuit).bad.contains(&true)),
        count(&|circuit| simulated(&unconstrained(circuit)).reaches_bad() && !simulated(circuit).reaches_bad()),
        count(&|circuit| rows(&unconstrained(circuit)).is_empty() && !rows(circuit).is_empty()),
        count(&|circuit| rows(circuit).len() > 1),
        count(&|circuit| rows(circuit).first().is_some_and(|set| set.contains(&true))),
        count(&|circuit| simulated(circuit).reaches_bad()),
    ];
    println!("{counts:?}");
    assert!(counts.iter().all(|&found| found >= LEAST), "{counts:?}");
}

/// How many circuits have other start states, steps or bad states by a mutant's rules.
fn told(circuits: &[Drawn], mutant: Rules) -> usize {
    let differs = |circuit: &&Drawn| {
        let (text, lemmas) = (circuit.circuit(), circuit.lemma_text());
        let problem = read(text.as_bytes(), lemmas.as_bytes(), mutant).expect("the texts are read");
        let (walk, found) = (simulated(circuit), Walk::of(&problem));
        (&found.init, &found.steps, &found.bad) != (&walk.init, &walk.steps, &walk.bad)
    };
    circuits.iter().filter(differs).count()
}

#[test]
fn the_simulation_tells_the_mutants_that_change_the_meaning() {
    let all = older_circuits();
    let mutants = [
        Rules::StartIsFree,
        Rules::StartIsOne,
        Rules::LatchesByLiteral,
        Rules::NextNegationLost,
        Rules::BadWithoutGates,
        Rules::FalseDropsItsClause,
        Rules::TrueLeavesItsClause,
        Rules::ConstantsExchanged,
    ];
    for mutant in mutants {
        let told = told(&all, mutant);
        assert!(told >= LEAST, "{}: {told}", mutant.name());
    }
}

#[test]
fn the_simulation_tells_the_mutants_that_change_the_meaning_of_edition_1_9() {
    let all = newer_circuits();
    let mutants = [
        Rules::MissingStartIsFree,
        Rules::StartOneIsZero,
        Rules::StartOneIsFree,
        Rules::StartAtItselfIsZero,
        Rules::StartAtItselfIsOne,
        Rules::ConstraintInInit,
        Rules::ConstraintMissingInTr,
        Rules::ConstraintOnNextState,
        Rules::BadLiteralMustHold,
        Rules::ConstraintMissingInBad,
        Rules::ConstraintNegationLost,
        Rules::ConstraintsAsOneClause,
        Rules::FirstConstraintOnly,
        Rules::FalseConstraintDropped,
    ];
    for mutant in mutants {
        let told = told(&all, mutant);
        assert!(told >= LEAST, "{}: {told}", mutant.name());
    }
}
