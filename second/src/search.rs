//! The search of document 01, rules (a) to (d), with its count of decisions.

use crate::mutants::Rules;

/// The budget was used up when a decision was wanted.
#[derive(Clone, Copy, PartialEq, Eq, Debug)]
pub struct Spent;

/// The decisions of a whole call and their budget.
#[derive(Clone, Copy, Debug)]
pub struct Count {
    pub budget: u32,
    pub decisions: u32,
}

impl Count {
    fn decide(&mut self) -> Result<(), Spent> {
        if self.decisions == self.budget {
            return Err(Spent);
        }
        self.decisions += 1;
        Ok(())
    }
}

/// A partial setting: for each literal 1 where it is true, -1 where it is false, 0 where unset.
#[derive(Clone)]
struct Setting {
    values: Vec<i8>,
    middle: i16,
}

impl Setting {
    fn unset(variables: usize) -> Setting {
        Setting { values: vec![0; 2 * variables + 1], middle: variables as i16 }
    }

    fn value(&self, literal: i16) -> i8 {
        self.values[(self.middle + literal) as usize]
    }

    /// How many places of the clause hold an unset literal, and the first of these literals;
    /// nothing if the clause has a true literal.
    fn unset_places(&self, clause: &[i16]) -> Option<(usize, i16)> {
        let mut places = 0;
        let mut first = 0;
        for &literal in clause {
            let value = self.value(literal);
            if value > 0 {
                return None;
            }
            if value == 0 {
                first = if places == 0 { literal } else { first };
                places += 1;
            }
        }
        Some((places, first))
    }

    fn set(&mut self, literal: i16) {
        self.values[(self.middle + literal) as usize] = 1;
        self.values[(self.middle - literal) as usize] = -1;
    }
}

/// What one look over all clauses finds: the first of (a), (b), (c), (d) that applies.
enum Look {
    Closed,
    Satisfied,
    Unit(i16),
    Open(i16),
}

/// One question: its clauses in order.
pub struct Search<'a> {
    pub clauses: Vec<&'a [i16]>,
    pub variables: usize,
    pub rules: Rules,
}

impl Search<'_> {
    /// Whether the clauses can be satisfied.
    pub fn satisfiable(&self, count: &mut Count) -> Result<bool, Spent> {
        self.search(&mut Setting::unset(self.variables), count)
    }

    fn search(&self, setting: &mut Setting, count: &mut Count) -> Result<bool, Spent> {
        loop {
            match self.look(setting) {
                Look::Closed => return Ok(false),
                Look::Satisfied => return Ok(true),
                Look::Unit(literal) => {
                    if self.rules.breaks(Rules::UnitsCounted) {
                        count.decide()?;
                    }
                    setting.set(literal);
                }
                Look::Open(literal) => return self.decide(literal, setting, count),
            }
        }
    }

    /// Rule (d): the literal true and then, if that closes, false, each from the setting as it stood.
    fn decide(&self, literal: i16, setting: &mut Setting, count: &mut Count) -> Result<bool, Spent> {
        let first = if self.rules.breaks(Rules::FalseTriedFirst) { -literal } else { literal };
        count.decide()?;
        let mut tried = setting.clone();
        tried.set(first);
        if self.search(&mut tried, count)? {
            return Ok(true);
        }
        if !self.rules.breaks(Rules::SecondTryFree) {
            count.decide()?;
        }
        if self.rules.breaks(Rules::ClosedTryKept) {
            *setting = tried;
        }
        setting.set(-first);
        self.search(setting, count)
    }

    fn look(&self, setting: &Setting) -> Look {
        let mut closed = false;
        let mut unit = None;
        let mut open: Option<&[i16]> = None;
        for &clause in &self.clauses {
            let Some((places, literal)) = setting.unset_places(clause) else {
                continue;
            };
            if places == 0 {
                if !self.rules.breaks(Rules::UnitBeforeClosed) {
                    return Look::Closed;
                }
                closed = true;
                continue;
            }
            let is_unit = places == 1 || self.is_unit_by_mutant(clause, setting);
            if is_unit && (unit.is_none() || self.rules.breaks(Rules::LastUnitClause)) {
                unit = Some(literal);
            }
            if open.is_none() || self.rules.breaks(Rules::LastOpenClause) {
                open = Some(clause);
            }
        }
        if self.rules.breaks(Rules::NoUnits) {
            unit = None;
        }
        match (unit, open) {
            (Some(literal), _) => Look::Unit(literal),
            (None, _) if closed => Look::Closed,
            (None, Some(clause)) => Look::Open(self.first_unset(clause, setting)),
            (None, None) => Look::Satisfied,
        }
    }

    fn first_unset(&self, clause: &[i16], setting: &Setting) -> i16 {
        let mut unset = clause.iter().copied().filter(|&literal| setting.value(literal) == 0);
        let found = if self.rules.breaks(Rules::LastUnsetLiteral) { unset.next_back() } else { unset.next() };
        found.expect("an open clause has an unset literal")
    }

    /// The mutant that counts equal literals as one place.
    fn is_unit_by_mutant(&self, clause: &[i16], setting: &Setting) -> bool {
        self.rules.breaks(Rules::UnitByLiterals) && {
            let mut unset = clause.iter().filter(|&&literal| setting.value(literal) == 0);
            let first = unset.next();
            unset.all(|literal| Some(literal) == first)
        }
    }
}
