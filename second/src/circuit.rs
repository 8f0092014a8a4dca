//! A small circuit builder: gates become helpers with their Tr clauses, latches get next values.

use crate::file::Problem;

/// A problem under construction. State variables are 1..n; inputs and gates are made one by one.
pub struct Circuit {
    pub problem: Problem,
}

impl Circuit {
    /// All latches are 0 in the one Init state.
    pub fn new(n: usize) -> Circuit {
        let init = (1..=n as i16).map(|v| vec![-v]).collect();
        Circuit { problem: Problem { n, init, ..Problem::default() } }
    }

    /// A new input, which may have any value at each step.
    pub fn input(&mut self) -> i16 {
        self.problem.m += 1;
        self.problem.variables() as i16
    }

    /// A helper that is true exactly where all these literals are.
    pub fn and(&mut self, literals: &[i16]) -> i16 {
        let gate = self.input();
        for &literal in literals {
            self.problem.tr.push(vec![-gate, literal]);
        }
        let mut all: Vec<i16> = literals.iter().map(|literal| -literal).collect();
        all.push(gate);
        self.problem.tr.push(all);
        gate
    }

    /// A literal that is true exactly where one of these is.
    pub fn or(&mut self, literals: &[i16]) -> i16 {
        let negated: Vec<i16> = literals.iter().map(|literal| -literal).collect();
        -self.and(&negated)
    }

    /// A literal that is true exactly where the two differ.
    pub fn differ(&mut self, a: i16, b: i16) -> i16 {
        let gate = self.input();
        let rows = [[-gate, a, b], [-gate, -a, -b], [gate, -a, b], [gate, a, -b]];
        self.problem.tr.extend(rows.map(|row| row.to_vec()));
        gate
    }

    /// A literal that is `a` where the test holds and `b` elsewhere.
    pub fn choose(&mut self, test: i16, a: i16, b: i16) -> i16 {
        let gate = self.input();
        let rows = [[-test, -gate, a], [-test, gate, -a], [test, -gate, b], [test, gate, -b]];
        self.problem.tr.extend(rows.map(|row| row.to_vec()));
        gate
    }

    /// The next value of latch v is this literal.
    pub fn next(&mut self, v: i16, literal: i16) {
        let next = self.problem.n as i16 + v;
        self.problem.tr.push(vec![-next, literal]);
        self.problem.tr.push(vec![next, -literal]);
    }

    /// Bad is where all literals of some term hold: one clause for each choice of a literal from
    /// each term.
    pub fn bad_where(&mut self, terms: &[Vec<i16>]) {
        let mut clauses = vec![vec![]];
        for term in terms {
            let longer = |clause: &Vec<i16>| {
                let clause = clause.clone();
                term.iter().map(move |&literal| [clause.clone(), vec![literal]].concat())
            };
            clauses = clauses.iter().flat_map(longer).collect();
        }
        self.problem.bad = clauses;
    }

    pub fn lemma(&mut self, literals: &[i16]) {
        self.problem.lemmas.push(literals.to_vec());
    }
}
