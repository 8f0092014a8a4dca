//! The definitions of document 01, with the bad states of request 2026-01, by walking all states, all steps, all
//! values of inputs and helpers and all subsets. No search is used.

use second::file::{Clause, Problem};

/// All states, all steps and, for each lemma, the states where it holds; states are numbers whose
/// bits are the values.
pub struct Walk {
    pub states: usize,
    pub init: Vec<bool>,
    pub bad: Vec<bool>,
    pub steps: Vec<(usize, usize)>,
    pub lemmas: Vec<Vec<bool>>,
}

fn holds(clause: &[i16], values: usize) -> bool {
    clause.iter().any(|&literal| {
        let value = values >> (literal.unsigned_abs() - 1) & 1;
        value == (literal > 0) as usize
    })
}

fn all_hold(clauses: &[Clause], values: usize) -> bool {
    clauses.iter().all(|clause| holds(clause, values))
}

impl Walk {
    pub fn of(problem: &Problem) -> Walk {
        let states = 1 << problem.n;
        let whole = |clauses: &[Clause]| (0..states).map(|state| all_hold(clauses, state)).collect();
        let pairs = (0..states).flat_map(|from| (0..states).map(move |to| (from, to)));
        let some_helpers = |clauses: &[Clause], values: usize| {
            (0..1 << problem.m).any(|helpers: usize| all_hold(clauses, values | helpers << (2 * problem.n)))
        };
        let is_step = |from: usize, to: usize| some_helpers(&problem.tr, from | to << problem.n);
        Walk {
            states,
            init: whole(&problem.init),
            bad: (0..states).map(|state| some_helpers(&problem.bad, state)).collect(),
            steps: pairs.filter(|&(from, to)| is_step(from, to)).collect(),
            lemmas: problem.lemmas.iter().map(|lemma| whole(std::slice::from_ref(lemma))).collect(),
        }
    }

    /// Every subset of the positions.
    pub fn subsets(&self) -> Vec<Vec<bool>> {
        let k = self.lemmas.len();
        (0..1_usize << k).map(|bits| (0..k).map(|p| bits >> p & 1 == 1).collect()).collect()
    }

    fn all_of(&self, set: &[bool], state: usize) -> bool {
        (0..set.len()).all(|p| !set[p] || self.lemmas[p][state])
    }

    pub fn initiation(&self, set: &[bool]) -> bool {
        (0..self.states).all(|state| !self.init[state] || self.all_of(set, state))
    }

    pub fn inductive(&self, set: &[bool]) -> bool {
        let kept = |&(from, to): &(usize, usize)| !self.all_of(set, from) || self.all_of(set, to);
        self.initiation(set) && self.steps.iter().all(kept)
    }

    pub fn safe(&self, set: &[bool]) -> bool {
        (0..self.states).all(|state| !(self.all_of(set, state) && self.bad[state]))
    }

    /// The minimal sets, ordered so that at the first position where two differ the one with it
    /// comes first.
    pub fn minimal_sets(&self) -> Vec<Vec<bool>> {
        let good: Vec<Vec<bool>> =
            self.subsets().into_iter().filter(|set| self.inductive(set) && self.safe(set)).collect();
        let part_of = |part: &Vec<bool>, set: &Vec<bool>| part != set && is_part(part, set);
        let minimal = good.iter().filter(|set| !good.iter().any(|part| part_of(part, set)));
        let mut minimal: Vec<Vec<bool>> = minimal.cloned().collect();
        minimal.sort();
        minimal.reverse();
        minimal
    }

    /// The one inductive set that contains all inductive sets.
    pub fn largest(&self) -> Vec<bool> {
        let inductive: Vec<Vec<bool>> = self.subsets().into_iter().filter(|set| self.inductive(set)).collect();
        let mut largest = inductive.iter().filter(|set| inductive.iter().all(|part| is_part(part, set)));
        let found = largest.next().expect("an inductive set contains all inductive sets").clone();
        assert!(largest.next().is_none(), "there is only one");
        found
    }

    /// Whether some run has a bad state.
    pub fn reaches_bad(&self) -> bool {
        let mut reached = self.init.clone();
        loop {
            let mut next = reached.clone();
            for &(from, to) in &self.steps {
                next[to] |= reached[from];
            }
            if next == reached {
                return (0..self.states).any(|state| reached[state] && self.bad[state]);
            }
            reached = next;
        }
    }
}

pub fn is_part(part: &[bool], set: &[bool]) -> bool {
    part.iter().zip(set).all(|(&inside, &outside)| !inside || outside)
}
