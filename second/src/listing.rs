//! The listing: its nodes, and the rows written into the lent space.

use crate::mutants::Rules;
use crate::questions::Questions;
use crate::rules::Stop;
use crate::search::Spent;
use crate::sets::{contains, with, without, Set};

/// The lent space and the rows written into it, row r at bytes r*k to r*k+k-1.
pub struct Rows<'a> {
    pub lent: &'a mut [u8],
    pub written: usize,
}

impl Rows<'_> {
    fn fits(&self, k: usize) -> bool {
        (self.written + 1) * k <= self.lent.len()
    }

    fn write(&mut self, set: &Set) -> Result<(), Stop> {
        let k = set.len();
        if !self.fits(k) {
            return Err(Stop::NoRoom);
        }
        write_marks(set, &mut self.lent[self.written * k..]);
        self.written += 1;
        Ok(())
    }
}

/// Writes the marks of a set at the start of the space: 1 for in and 0 for out.
pub fn write_marks(set: &Set, space: &mut [u8]) {
    for (mark, &inside) in space.iter_mut().zip(set) {
        *mark = inside as u8;
    }
}

impl Questions<'_> {
    /// Lists every minimal safe inductive set as a row.
    pub fn listing(&mut self, rows: &mut Rows) -> Result<(), Stop> {
        let largest = self.largest_safe()?;
        let empty = vec![false; largest.len()];
        self.node(&empty, &largest, rows)
    }

    /// The node (K, A): the minimal sets that contain K and lie within A.
    fn node(&mut self, k: &Set, a: &Set, rows: &mut Rows) -> Result<(), Stop> {
        if self.is_safe_and_inductive(k)? {
            if self.rules.breaks(Rules::RoomBeforeMinimality) && !rows.fits(k.len()) {
                return Err(Stop::NoRoom);
            }
            if self.is_minimal(k)? {
                rows.write(k)?;
            }
            if !self.rules.breaks(Rules::NodeGoesOn) {
                return Ok(());
            }
        }
        let mut choices = (0..k.len()).filter(|&p| a[p] && !k[p]);
        let highest = self.rules.breaks(Rules::HighestPosition);
        let choice = if highest { choices.next_back() } else { choices.next() };
        // There is one: A is safe and inductive, so K is not A. A mutant may come here without.
        let Some(p) = choice else {
            return Ok(());
        };
        if self.rules.breaks(Rules::ExcludeBeforeInclude) {
            self.exclude(p, k, a, rows)?;
            return self.node(&with(k, p), a, rows);
        }
        self.node(&with(k, p), a, rows)?;
        self.exclude(p, k, a, rows)
    }

    /// The second part of a node: X is Rounds of A without p, and then the node (K, X) if X
    /// contains K and is safe.
    fn exclude(&mut self, p: usize, k: &Set, a: &Set, rows: &mut Rows) -> Result<(), Stop> {
        let rest = without(a, p);
        let without_rounds = self.rules.breaks(Rules::ExcludeWithoutRounds);
        let x = if without_rounds { rest } else { self.rounds(rest)? };
        let has_k = contains(&x, k);
        if !has_k && !self.rules.breaks(Rules::SafetyThoughXLacksK) {
            return Ok(());
        }
        let unsafe_x = !self.rules.breaks(Rules::NoSafetyOfX) && self.safety(&x)?;
        if has_k && !unsafe_x {
            self.node(k, &x, rows)?;
        }
        Ok(())
    }

    /// The steps of K up to the first satisfiable, then, if none, the safety of K.
    fn is_safe_and_inductive(&mut self, k: &Set) -> Result<bool, Spent> {
        let safety_first = self.rules.breaks(Rules::NodeSafetyFirst);
        if safety_first && self.safety(k)? {
            return Ok(false);
        }
        let inductive = !self.some_step_fails(k)?;
        if safety_first || !(inductive || self.rules.breaks(Rules::NodeSafetyAlways)) {
            return Ok(inductive);
        }
        let unsafe_k = self.safety(k)?;
        Ok(inductive && !unsafe_k)
    }
}
