//! Safety as mutants answer it that misread inputs and helpers in Bad. They count as the true rules do, and only
//! their yes or no is another.

use crate::file::{Clause, Problem};
use crate::mutants::Rules;
use crate::search::{Count, Search};

/// Values of inputs and helpers are walked up to so many of them.
const FEW: usize = 6;
/// A mutant's own search takes so many decisions at most, which are not counted.
const DECISIONS: u32 = 2_000;

/// Whether these lemmas can hold together with what the mutant takes for Bad; nothing where it takes Bad itself, or
/// where it would have to search too long.
pub fn safety(problem: &Problem, lemmas: &[&[i16]], rules: Rules) -> Option<bool> {
    let bad = bad(problem, rules)?;
    let clauses = lemmas.iter().copied().chain(bad.iter().map(Clause::as_slice)).collect();
    let search = Search { clauses, variables: problem.variables(), rules: Rules::TRUE };
    search.satisfiable(&mut Count { budget: DECISIONS, decisions: 0 }).ok()
}

fn bad(problem: &Problem, rules: Rules) -> Option<Vec<Clause>> {
    match rules {
        Rules::BadForAllInputs if problem.m <= FEW => Some(for_all_inputs(problem)),
        Rules::BadLastInputFree => Some(last_input_free(problem)),
        Rules::BadClauseByClause => Some(clause_by_clause(problem)),
        _ => None,
    }
}

/// Bad once for all values of inputs and helpers: a true one drops its clause, a false one leaves it.
fn for_all_inputs(problem: &Problem) -> Vec<Clause> {
    let mut result = Vec::new();
    for values in 0..1 << problem.m {
        let value = |literal: i16| input_value(problem, literal, values);
        let open = problem.bad.iter().filter(|clause| clause.iter().all(|&literal| value(literal) != Some(true)));
        let of_state = |clause: &Clause| clause.iter().copied().filter(|&literal| value(literal).is_none()).collect();
        result.extend(open.map(of_state));
    }
    result
}

/// Bad, and that all inputs and helpers but the last are false.
fn last_input_free(problem: &Problem) -> Vec<Clause> {
    let others = 2 * problem.n + 1..problem.variables();
    let closed = others.map(|variable| vec![-(variable as i16)]);
    problem.bad.iter().cloned().chain(closed).collect()
}

/// Bad without the clauses that name an input or helper: by itself each of them can hold in every state.
fn clause_by_clause(problem: &Problem) -> Vec<Clause> {
    let names_none = |clause: &&Clause| clause.iter().all(|&literal| input_value(problem, literal, 0).is_none());
    problem.bad.iter().filter(names_none).cloned().collect()
}

/// The value of a literal of an input or helper; nothing for one of the state.
fn input_value(problem: &Problem, literal: i16, values: usize) -> Option<bool> {
    let at = (literal.unsigned_abs() as usize).checked_sub(2 * problem.n + 1)?;
    Some((values >> at & 1 == 1) == (literal > 0))
}
