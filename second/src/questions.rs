//! The three kinds of question, initiation, step and safety, each with its clauses in the paper's order.

use crate::file::{Clause, Problem};
use crate::misread;
use crate::mutants::Rules;
use crate::search::{Count, Search, Spent};
use crate::sets::{positions_if_reversed, Set};

/// Asks questions of one problem, with the count of the whole call. An answer is true if the
/// clauses can be satisfied.
pub struct Questions<'a> {
    pub problem: &'a Problem,
    pub count: Count,
    pub rules: Rules,
}

impl<'a> Questions<'a> {
    pub fn new(problem: &'a Problem, budget: u32, rules: Rules) -> Questions<'a> {
        Questions { problem, count: Count { budget, decisions: 0 }, rules }
    }

    /// Initiation of d: Init, then the negation of each literal of d.
    pub fn initiation(&mut self, d: usize) -> Result<bool, Spent> {
        let negated = negated(&self.problem.lemmas[d], 0);
        let init = self.list(&self.problem.init, Rules::InitReversed);
        let mut parts = vec![init, all(&negated)];
        if self.rules.breaks(Rules::NegatedFirstInInitiation) {
            parts.reverse();
        }
        self.ask(&parts)
    }

    /// Step of S and d: Tr, the lemmas of S by position, then the negated literals of d one step on.
    pub fn step(&mut self, set: &Set, d: usize) -> Result<bool, Spent> {
        let negated = negated(&self.problem.lemmas[d], self.problem.n as i16);
        let lemmas = self.lemmas(set, Rules::LemmasReversedInStep);
        let tr = self.list(&self.problem.tr, Rules::TrReversed);
        let mut parts = vec![tr, lemmas, all(&negated)];
        if self.rules.breaks(Rules::LemmasBeforeTr) {
            parts.swap(0, 1);
        }
        if self.rules.breaks(Rules::NegatedFirstInStep) {
            parts.rotate_right(1);
        }
        self.ask(&parts)
    }

    /// Safety of S: the lemmas of S by position, then Bad.
    pub fn safety(&mut self, set: &Set) -> Result<bool, Spent> {
        let lemmas = self.lemmas(set, Rules::LemmasReversedInSafety);
        let misread = misread::safety(self.problem, &lemmas, self.rules);
        let bad = self.list(&self.problem.bad, Rules::BadReversed);
        let mut parts = vec![lemmas, bad];
        if self.rules.breaks(Rules::BadBeforeLemmas) {
            parts.reverse();
        }
        let answer = self.ask(&parts)?;
        Ok(misread.unwrap_or(answer))
    }

    /// A list of the file in its order.
    fn list(&self, clauses: &'a [Clause], reversed: Rules) -> Vec<&'a [i16]> {
        let mut list = all(clauses);
        if self.rules.breaks(reversed) {
            list.reverse();
        }
        list
    }

    fn lemmas(&self, set: &Set, reversed: Rules) -> Vec<&'a [i16]> {
        let problem = self.problem;
        let order = positions_if_reversed(set, self.rules.breaks(reversed));
        order.into_iter().map(|p| problem.lemmas[p].as_slice()).collect()
    }

    fn ask(&mut self, parts: &[Vec<&[i16]>]) -> Result<bool, Spent> {
        let variables = self.problem.variables();
        let search = Search { clauses: parts.concat(), variables, rules: self.rules };
        if self.rules.breaks(Rules::BudgetForEachQuestion) {
            let mut alone = Count { budget: self.count.budget, decisions: 0 };
            let answer = search.satisfiable(&mut alone);
            self.count.decisions = self.count.decisions.saturating_add(alone.decisions);
            return answer;
        }
        search.satisfiable(&mut self.count)
    }
}

fn all(clauses: &[Clause]) -> Vec<&[i16]> {
    clauses.iter().map(Clause::as_slice).collect()
}

/// The negation of each literal of a lemma as a one-literal clause, with `added` to each variable.
fn negated(lemma: &[i16], added: i16) -> Vec<Clause> {
    lemma.iter().map(|&literal| vec![-(literal + literal.signum() * added)]).collect()
}
