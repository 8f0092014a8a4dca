//! Rounds, the largest set and the one set, question by question as the paper orders them.

use crate::mutants::Rules;
use crate::questions::Questions;
use crate::search::Spent;
use crate::sets::{positions, positions_if_reversed, without, Set};

/// Why a call stops before its answer: refusals 10, 11 and 12.
#[derive(Clone, Copy, PartialEq, Eq, Debug)]
pub enum Stop {
    Spent,
    NotSafe,
    NoRoom,
}

impl From<Spent> for Stop {
    fn from(_: Spent) -> Stop {
        Stop::Spent
    }
}

impl Questions<'_> {
    /// Rounds of S: asks the step of every d of S, removes together all that are satisfiable,
    /// and repeats until a round removes none.
    pub fn rounds(&mut self, set: Set) -> Result<Set, Spent> {
        let mut set = set;
        loop {
            let next = self.round(&set)?;
            if next == set || self.rules.breaks(Rules::RoundsOnceOnly) {
                return Ok(next);
            }
            set = next;
        }
    }

    fn round(&mut self, set: &Set) -> Result<Set, Spent> {
        let mut next = set.clone();
        for d in positions_if_reversed(set, self.rules.breaks(Rules::RoundsFromTheTop)) {
            let against = match self.rules {
                Rules::DroppedWithinRound => next.clone(),
                Rules::AgainstItselfAlone => (0..set.len()).map(|p| p == d).collect(),
                Rules::StepWithoutItself => without(set, d),
                _ => set.clone(),
            };
            let fails = self.rules.breaks(Rules::InitiationInRounds) && self.initiation(d)?;
            if fails || self.step(&against, d)? {
                next[d] = false;
            }
        }
        Ok(next)
    }

    /// The largest set: asks initiation of every position, drops the satisfiable ones, then Rounds.
    pub fn largest(&mut self) -> Result<Set, Spent> {
        let every = vec![true; self.problem.k()];
        let mut set = every.clone();
        if !self.rules.breaks(Rules::InitiationInRounds) {
            for d in positions_if_reversed(&every, self.rules.breaks(Rules::InitiationFromTheTop)) {
                set[d] = !self.initiation(d)?;
            }
        }
        self.rounds(set)
    }

    /// The largest set, which must be safe: else refusal 11.
    pub fn largest_safe(&mut self) -> Result<Set, Stop> {
        let set = self.largest()?;
        if !self.rules.breaks(Rules::LargestSafetyNotAsked) && self.safety(&set)? {
            return Err(Stop::NotSafe);
        }
        Ok(set)
    }

    /// One set: from the largest set, each position by rising number is tried out.
    pub fn one(&mut self) -> Result<Set, Stop> {
        let mut set = self.largest_safe()?;
        for p in positions_if_reversed(&set, self.rules.breaks(Rules::OneFromTheTop)) {
            if !set[p] && !self.rules.breaks(Rules::OneAsksDropped) {
                continue;
            }
            let rest = without(&set, p);
            if self.rules.breaks(Rules::OneSafetyBeforeRounds) && self.safety(&rest)? {
                continue;
            }
            let smaller = self.rounds(rest)?;
            if self.rules.breaks(Rules::OneBySingles) && spoiled(&set, &smaller) {
                continue;
            }
            if !self.safety(&smaller)? {
                set = smaller;
            }
        }
        Ok(set)
    }

    /// Whether a lemma of the set fails its step, asked by position up to the first that does.
    pub fn some_step_fails(&mut self, set: &Set) -> Result<bool, Spent> {
        let mut fails = false;
        let reversed = self.rules.breaks(Rules::NodeStepsFromTheTop);
        for d in positions_if_reversed(set, reversed) {
            fails |= self.step(set, d)?;
            if fails && !self.rules.breaks(Rules::NodeStepsNoEarlyStop) {
                break;
            }
        }
        Ok(fails)
    }

    /// Whether the set, safe and inductive itself, has no safe inductive proper part: for each p
    /// Rounds of the set without p and the safety of the result, up to the first unsatisfiable.
    pub fn is_minimal(&mut self, set: &Set) -> Result<bool, Spent> {
        let mut minimal = true;
        let reversed = self.rules.breaks(Rules::MinimalityFromTheTop);
        for p in positions_if_reversed(set, reversed) {
            let smaller = self.rounds(without(set, p))?;
            if self.rules.breaks(Rules::MinimalityBySingles) && spoiled(set, &smaller) {
                continue;
            }
            minimal &= self.safety(&smaller)?;
            if !minimal && !self.rules.breaks(Rules::MinimalityNoEarlyStop) {
                break;
            }
        }
        Ok(minimal)
    }
}

/// Whether more than the one position went out.
fn spoiled(set: &Set, smaller: &Set) -> bool {
    positions(smaller).len() + 1 < positions(set).len()
}
