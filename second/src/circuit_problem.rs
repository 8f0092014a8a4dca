//! From a circuit text and a lemma text to the problem: refusals 13, 15 and 14 in their order, then the clauses in
//! theirs.

use crate::circuit_clauses::{build, clauses_with_constants, reordered};
use crate::circuit_gates::{wire, Start, Wired};
use crate::circuit_lemmas::{self, Lemma};
use crate::circuit_symbols::symbols;
use crate::circuit_text::{definitions, header_alone, within, CircuitText, Header, Line};
use crate::file::{Problem, Refusal};
use crate::mutants::Rules;
use crate::number::Number;

/// The most literals of a lemma: a body of 128 bytes.
const LITERALS: usize = 64;
const OVER: Refusal = Refusal { number: 14, place: 0 };
const LIVENESS: u32 = 15;

/// The problem that both texts give, or the first refusal: 13 of the circuit, 13 of the lemmas, 15, 14.
pub fn read(circuit: &[u8], lemmas: &[u8], rules: Rules) -> Result<Problem, Refusal> {
    if let Some(refusal) = out_of_order(circuit, lemmas, rules) {
        return Err(refusal);
    }
    let (text, wired) = read_circuit(circuit, rules)?;
    match rules {
        Rules::LimitsBeforeLemmas => limits(circuit, &text.header, rules)?,
        Rules::JusticeBeforeLemmas => liveness(&text, rules)?,
        _ => {}
    }
    let list = circuit_lemmas::read(lemmas, &text.header.latches, rules)?;
    match rules {
        Rules::JusticeAfterLimits => {}
        Rules::LongBeforeJustice if !within(circuit) => return Err(OVER),
        _ => liveness(&text, rules)?,
    }
    limits(circuit, &text.header, rules)?;
    lemma_limits(lemmas, &list, rules)?;
    let wired = in_order(wired.ok_or(OVER)?, &text, rules);
    let problem = build(&wired, &list, rules);
    clause_limit(&problem, &wired, rules)?;
    if rules.breaks(Rules::JusticeAfterLimits) {
        liveness(&text, rules)?;
    }
    Ok(problem)
}

/// 15 where there is justice or fairness.
fn liveness(text: &CircuitText, rules: Rules) -> Result<(), Refusal> {
    let [justice, fairness] = [&text.header.justice, &text.header.fairness].map(|count| !count.is_zero());
    let mut literals = text.justice.iter().chain(&text.fairness);
    let found = match rules {
        Rules::JusticeLetThrough => fairness,
        Rules::FairnessLetThrough => justice,
        Rules::EmptyJusticeLetThrough => literals.next().is_some(),
        _ => justice || fairness,
    };
    let place = match literals.next() {
        Some(line) if rules.breaks(Rules::JusticeHasAPlace) => line.place,
        _ => 0,
    };
    if found {
        Err(Refusal { number: LIVENESS, place })
    } else {
        Ok(())
    }
}

/// The lines of a circuit and, if the text is not too long to be judged in full, where its literals lead.
fn read_circuit(circuit: &[u8], rules: Rules) -> Result<(CircuitText, Option<Wired>), Refusal> {
    let text = definitions(circuit, rules)?;
    let symbols_last = rules.breaks(Rules::SymbolsJudgedLast);
    if !symbols_last {
        symbols(circuit, &text, rules)?;
    }
    let judged = within(circuit);
    let undefined = judged && !rules.breaks(Rules::UndefinedIsFalse) || rules.breaks(Rules::LongUndefinedJudged);
    let circles = judged && !rules.breaks(Rules::CircleLetThrough) || rules.breaks(Rules::LongCircleJudged);
    let wired = if undefined || circles || judged { Some(wire(&text, undefined, circles, rules)?) } else { None };
    if symbols_last {
        symbols(circuit, &text, rules)?;
    }
    Ok((text, wired.filter(|_| judged)))
}

/// What a mutant with another order of refusals says before the circuit is read.
fn out_of_order(circuit: &[u8], lemmas: &[u8], rules: Rules) -> Option<Refusal> {
    match rules {
        Rules::LemmasBeforeCircuit => circuit_lemmas::read(lemmas, &header_alone(circuit)?.latches, rules).err(),
        Rules::LimitsBeforeCircuit => limits(circuit, &header_alone(circuit)?, rules).err(),
        Rules::JusticeBeforeCircuit => {
            let Header { justice, fairness, .. } = header_alone(circuit)?;
            let none = justice.is_zero() && fairness.is_zero();
            (!none).then_some(Refusal { number: LIVENESS, place: 0 })
        }
        Rules::LongCircuitNotJudged if !within(circuit) => Some(OVER),
        Rules::LongLemmasNotJudged if !within(lemmas) => read_circuit(circuit, rules).err().or(Some(OVER)),
        _ => None,
    }
}

/// The limits that a circuit can exceed.
fn limits(circuit: &[u8], header: &Header, rules: Rules) -> Result<(), Refusal> {
    let Header { inputs, latches, gates, .. } = header;
    let helpers = if rules.breaks(Rules::GatesNotCounted) { inputs.clone() } else { inputs.plus(gates) };
    let no_latch = latches.is_zero() && !rules.breaks(Rules::NoLatchLetThrough);
    let many_latches = over(latches.count(), Problem::STATE, rules) && !rules.breaks(Rules::MoreLatchesLetThrough);
    let many_helpers = over(helpers.count(), Problem::HELPERS, rules);
    let long = over(circuit.len(), Problem::FILE_BYTES, rules);
    if no_latch || !one_bad(header, rules) || many_latches || many_helpers || long {
        Err(OVER)
    } else {
        Ok(())
    }
}

/// Whether one literal says what is bad: a bad literal without any output, or a single output without a bad literal.
fn one_bad(header: &Header, rules: Rules) -> bool {
    let Header { outputs, bad, .. } = header;
    let one = Number::of(1);
    match rules {
        Rules::NoOutputLetThrough if bad.is_zero() && outputs.is_zero() => true,
        Rules::MoreOutputsLetThrough if bad.is_zero() && *outputs > one => true,
        Rules::MoreBadLetThrough if outputs.is_zero() && *bad > one => true,
        Rules::BadBesideOutputTaken if *bad == one => true,
        Rules::OutputBesideBadTaken if *outputs == one => true,
        Rules::BadNeedsAnOutput => *outputs == one,
        _ => bad.plus(outputs) == one,
    }
}

/// The clauses that are built, with the lemmas, are 4,096 at most.
fn clause_limit(problem: &Problem, wired: &Wired, rules: Rules) -> Result<(), Refusal> {
    let free = wired.starts.iter().filter(|&&start| start == Start::Either).count();
    let clauses = match rules {
        Rules::ConstantClausesCounted => clauses_with_constants(wired) + problem.k(),
        Rules::LemmasNotCounted => problem.clauses() - problem.k(),
        Rules::ConstraintsCountedOnce => problem.clauses() - wired.constraints.len().min(problem.bad.len()),
        Rules::FreeStartsCounted => problem.clauses() + free,
        _ => problem.clauses(),
    };
    if over(clauses, Problem::CLAUSES, rules) && !rules.breaks(Rules::MoreClausesLetThrough) {
        Err(OVER)
    } else {
        Ok(())
    }
}

/// The limits that a lemma text can exceed.
fn lemma_limits(text: &[u8], lemmas: &[Lemma], rules: Rules) -> Result<(), Refusal> {
    let more = rules.breaks(Rules::ClosingZeroCounted) as usize;
    let long_lemma = lemmas.iter().any(|lemma| over(lemma.len() + more, LITERALS, rules));
    let many = over(lemmas.len(), Problem::LEMMAS, rules) && !rules.breaks(Rules::MoreLemmasLetThrough);
    let long = over(text.len(), Problem::FILE_BYTES, rules);
    if long_lemma || many || long {
        Err(OVER)
    } else {
        Ok(())
    }
}

fn over(count: usize, limit: usize, rules: Rules) -> bool {
    count > limit || (count == limit && rules.breaks(Rules::LimitsThemselvesRefused))
}

/// Inputs, latches and gates stand by line order; mutants have other orders.
fn in_order(wired: Wired, text: &CircuitText, rules: Rules) -> Wired {
    let by_line = |lines: &[Line]| (0..lines.len()).collect::<Vec<usize>>();
    let by_literal = |lines: &[Line]| {
        let mut order = by_line(lines);
        order.sort_by_key(|&at| lines[at].literals[0].clone());
        order
    };
    let (inputs, latches, gates) = (by_line(&text.inputs), by_line(&text.latches), by_line(&text.gates));
    match rules {
        Rules::InputsByLiteral => reordered(&wired, &by_literal(&text.inputs), &latches, &gates),
        Rules::LatchesByLiteral => reordered(&wired, &inputs, &by_literal(&text.latches), &gates),
        Rules::GatesByLiteral => reordered(&wired, &inputs, &latches, &by_literal(&text.gates)),
        Rules::GatesByNeed => reordered(&wired, &inputs, &latches, &wired.order),
        _ => wired,
    }
}
