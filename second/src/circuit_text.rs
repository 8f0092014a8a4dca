//! The circuit text (ASCII AIGER, editions 2007 and 1.9) read line by line from the header to the last gate: every
//! fault that a line has by itself or beside earlier lines. Symbols are in `circuit_symbols`; what a line can be at
//! fault for only when all lines are known is in `circuit_gates`.

use crate::file::{Problem, Refusal};
use crate::lines::{at_fault, Lines};
use crate::mutants::Rules;
use crate::number::{numbers, words, Number};
use std::collections::HashSet;

/// The numbers of the line `aag M I L O A`, or of `aag M I L O A B C J F` with those left out 0.
#[derive(Clone, Debug)]
pub struct Header {
    pub most: Number,
    pub inputs: Number,
    pub latches: Number,
    pub outputs: Number,
    pub gates: Number,
    pub bad: Number,
    pub constraints: Number,
    pub justice: Number,
    pub fairness: Number,
    /// How many of them the line has.
    pub numbers: usize,
}

impl Header {
    const OLDER: usize = 5;
    const ALL: usize = 9;

    /// Whether the text is of edition 1.9: six numbers or more.
    pub fn newer(&self) -> bool {
        self.numbers > Header::OLDER
    }
}

/// A line of literals and its place.
#[derive(Clone, Debug)]
pub struct Line {
    pub place: usize,
    pub literals: Vec<Number>,
}

/// The lines between header and symbols, and where the symbols start. Justice has its literals only, not its counts.
#[derive(Clone, Debug)]
pub struct CircuitText {
    pub header: Header,
    pub inputs: Vec<Line>,
    pub latches: Vec<Line>,
    pub outputs: Vec<Line>,
    pub bad: Vec<Line>,
    pub constraints: Vec<Line>,
    pub justice: Vec<Line>,
    pub fairness: Vec<Line>,
    pub gates: Vec<Line>,
    pub symbols: usize,
}

/// The sections of a text that hold lines of literals.
#[derive(Clone, Copy, PartialEq, Eq)]
enum Section {
    Inputs,
    Latches,
    Outputs,
    Bad,
    Constraints,
    Justice,
    Fairness,
    Gates,
}

/// Their order in a text.
fn order(rules: Rules) -> [Section; 8] {
    use Section::*;
    match rules {
        Rules::BadBeforeOutputs => [Inputs, Latches, Bad, Outputs, Constraints, Justice, Fairness, Gates],
        Rules::ConstraintsBeforeBadLines => [Inputs, Latches, Outputs, Constraints, Bad, Justice, Fairness, Gates],
        Rules::FairnessBeforeJustice => [Inputs, Latches, Outputs, Bad, Constraints, Fairness, Justice, Gates],
        Rules::NewerSectionsAfterGates => [Inputs, Latches, Outputs, Gates, Bad, Constraints, Justice, Fairness],
        _ => [Inputs, Latches, Outputs, Bad, Constraints, Justice, Fairness, Gates],
    }
}

/// Whether a text is short enough to be judged in full.
pub fn within(text: &[u8]) -> bool {
    text.len() <= Problem::FILE_BYTES
}

/// Reads the header and every section up to the symbols.
pub fn definitions(text: &[u8], rules: Rules) -> Result<CircuitText, Refusal> {
    let mut lines = Lines::new(text, 0, rules);
    let header = header(&mut lines, rules)?;
    let judged = within(text) && !rules.breaks(Rules::DefinedTwiceLetThrough);
    let mut sections = Sections {
        lines,
        largest: header.most.plus(&header.most),
        starts: header.newer() || rules.breaks(Rules::LatchStartLetThrough),
        defined: HashSet::new(),
        defined_twice_judged: judged || rules.breaks(Rules::LongDefinedTwiceJudged),
        rules,
    };
    let mut circuit = CircuitText::of(header);
    for section in order(rules) {
        let lines = sections.section(section, &circuit.header)?;
        *circuit.section(section) = lines;
    }
    circuit.symbols = sections.lines.place;
    Ok(circuit)
}

impl CircuitText {
    /// A header with no lines yet.
    fn of(header: Header) -> CircuitText {
        CircuitText {
            header,
            inputs: vec![],
            latches: vec![],
            outputs: vec![],
            bad: vec![],
            constraints: vec![],
            justice: vec![],
            fairness: vec![],
            gates: vec![],
            symbols: 0,
        }
    }

    fn section(&mut self, section: Section) -> &mut Vec<Line> {
        match section {
            Section::Inputs => &mut self.inputs,
            Section::Latches => &mut self.latches,
            Section::Outputs => &mut self.outputs,
            Section::Bad => &mut self.bad,
            Section::Constraints => &mut self.constraints,
            Section::Justice => &mut self.justice,
            Section::Fairness => &mut self.fairness,
            Section::Gates => &mut self.gates,
        }
    }
}

/// The header of a text, if its first line is one.
pub fn header_alone(text: &[u8]) -> Option<Header> {
    header(&mut Lines::new(text, 0, Rules::TRUE), Rules::TRUE).ok()
}

fn header(lines: &mut Lines, rules: Rules) -> Result<Header, Refusal> {
    let (place, line) = lines.take()?;
    header_line(line, rules).ok_or(at_fault(place))
}

fn header_line(line: &[u8], rules: Rules) -> Option<Header> {
    let words = words(line, rules);
    let (&name, rest) = words.split_first()?;
    let mut values = numbers(rest, rules)?;
    if rules.breaks(Rules::LongHeaderLetThrough) {
        values.truncate(Header::ALL);
    }
    let count = values.len();
    if name != b"aag" || !header_length(count, rules) {
        return None;
    }
    values.resize(Header::ALL, Number::of(0));
    let [most, inputs, latches, outputs, gates, bad, constraints, justice, fairness] =
        <[Number; Header::ALL]>::try_from(values).ok()?;
    let mut sum = inputs.plus(&latches).plus(&gates);
    match rules {
        Rules::OutputsInTheSum => sum = sum.plus(&outputs),
        Rules::BadInTheSum => sum = sum.plus(&bad).plus(&constraints),
        _ => {}
    }
    let fits = sum <= most || rules.breaks(Rules::SumNotTested);
    let header = Header { most, inputs, latches, outputs, gates, bad, constraints, justice, fairness, numbers: count };
    fits.then_some(header)
}

/// Five numbers to nine.
fn header_length(count: usize, rules: Rules) -> bool {
    match rules {
        Rules::NewerHeaderRefused => count == Header::OLDER,
        Rules::ShorterHeaderRefused => count == Header::OLDER || count == Header::ALL,
        _ => (Header::OLDER..=Header::ALL).contains(&count),
    }
}

/// The lines of literals, with 2M, whether a latch line may say where the latch starts, and the variables defined so
/// far, each by its even literal.
struct Sections<'a> {
    lines: Lines<'a>,
    largest: Number,
    starts: bool,
    defined: HashSet<Number>,
    defined_twice_judged: bool,
    rules: Rules,
}

impl Sections<'_> {
    fn section(&mut self, section: Section, header: &Header) -> Result<Vec<Line>, Refusal> {
        match section {
            Section::Inputs => self.literals(&header.inputs, true, 0),
            Section::Latches => self.each(&header.latches, Sections::latch),
            Section::Outputs => self.literals(&header.outputs, false, 1),
            Section::Bad => self.literals(&header.bad, false, 1),
            Section::Constraints => self.literals(&header.constraints, false, 1),
            Section::Justice => self.justice(&header.justice),
            Section::Fairness => self.literals(&header.fairness, false, 1),
            Section::Gates => self.literals(&header.gates, true, 2),
        }
    }

    /// So many lines, each read in the same way.
    fn each(
        &mut self,
        lines: &Number,
        read: impl Fn(&mut Self, &[u8]) -> Option<Vec<Number>>,
    ) -> Result<Vec<Line>, Refusal> {
        let mut found = Vec::new();
        for _ in 0..lines.count() {
            let (place, line) = self.lines.take()?;
            let literals = read(self, line).ok_or(at_fault(place))?;
            found.push(Line { place, literals });
        }
        Ok(found)
    }

    /// So many lines of a literal that is defined, or none such, and so many that are used.
    fn literals(&mut self, lines: &Number, defines: bool, uses: usize) -> Result<Vec<Line>, Refusal> {
        self.each(lines, |sections, line| {
            let literals = numbers(&words(line, sections.rules), sections.rules)?;
            sections.fit(&literals, defines, uses).then_some(literals)
        })
    }

    fn fit(&mut self, literals: &[Number], defines: bool, uses: usize) -> bool {
        if literals.len() != defines as usize + uses {
            return false;
        }
        let (definition, used) = literals.split_at(defines as usize);
        let defined = definition.iter().all(|literal| self.define(literal));
        defined && used.iter().all(|literal| self.may_be_used(literal))
    }

    /// A latch and its next literal and, in edition 1.9 and if the line says so, where it starts.
    fn latch(&mut self, line: &[u8]) -> Option<Vec<Number>> {
        let literals = numbers(&words(line, self.rules), self.rules)?;
        let start_missing = literals.len() == 2 && self.starts && self.rules.breaks(Rules::StartNeeded);
        let without_start = match &literals[..] {
            [latch, _, start] if self.starts && self.may_start_at(latch, start) => &literals[..2],
            all => all,
        };
        (!start_missing && self.fit(without_start, true, 1)).then_some(literals)
    }

    /// 0, 1 or the latch itself.
    fn may_start_at(&self, latch: &Number, start: &Number) -> bool {
        match self.rules {
            Rules::StartAtAnyLiteral => self.may_be_used(start),
            Rules::StartAtOwnNegation => *start <= Number::of(1) || start.made_even() == *latch,
            Rules::StartAtItselfRefused => *start <= Number::of(1),
            _ => *start <= Number::of(1) || start == latch,
        }
    }

    /// So many lines of a count, then for all counts together that many lines of a literal.
    fn justice(&mut self, lines: &Number) -> Result<Vec<Line>, Refusal> {
        let mut all = Number::of(0);
        let mut found = Vec::new();
        for _ in 0..lines.count() {
            let (place, line) = self.lines.take()?;
            let count = self.count(line).ok_or(at_fault(place))?;
            match self.rules {
                Rules::JusticeLiteralsLeftOut => {}
                Rules::LastJusticeCountOnly => all = count,
                Rules::JusticeLiteralsAfterEachCount => found.extend(self.literals(&count, false, 1)?),
                _ => all = all.plus(&count),
            }
        }
        found.extend(self.literals(&all, false, 1)?);
        Ok(found)
    }

    /// Any number.
    fn count(&self, line: &[u8]) -> Option<Number> {
        let [count] = <[Number; 1]>::try_from(numbers(&words(line, self.rules), self.rules)?).ok()?;
        let in_range = !self.rules.breaks(Rules::JusticeCountsInRange) || self.may_be_used(&count);
        in_range.then_some(count)
    }

    /// Even, 2 to 2M, and not defined before.
    fn define(&mut self, literal: &Number) -> bool {
        let even = !literal.is_odd() || self.rules.breaks(Rules::OddDefinitionLetThrough);
        let not_zero = !literal.made_even().is_zero() || self.rules.breaks(Rules::ConstantDefinitionLetThrough);
        let in_range = literal.made_even() <= self.largest || self.rules.breaks(Rules::DefinitionPastRange);
        let new = self.defined.insert(literal.made_even()) || !self.defined_twice_judged;
        even && not_zero && in_range && new
    }

    /// 0 to 2M+1: the even one of its variable is at most 2M.
    fn may_be_used(&self, literal: &Number) -> bool {
        match self.rules {
            Rules::UsePastRange => true,
            Rules::LastUseRefused => *literal <= self.largest,
            _ => literal.made_even() <= self.largest,
        }
    }
}
