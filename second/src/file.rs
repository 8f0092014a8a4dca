//! The problem file: its limits, the table of kinds, and the reader with refusals 1 to 8.

use crate::mutants::Rules;

pub type Clause = Vec<i16>;

/// A problem as read: state variables 1..n, next values n+1..2n, inputs and helpers 2n+1..2n+m.
#[derive(Clone, PartialEq, Eq, Debug, Default)]
pub struct Problem {
    pub n: usize,
    pub m: usize,
    pub init: Vec<Clause>,
    pub tr: Vec<Clause>,
    pub bad: Vec<Clause>,
    pub lemmas: Vec<Clause>,
}

impl Problem {
    pub const FILE_BYTES: usize = 65_536;
    pub const STATE: usize = 96;
    pub const HELPERS: usize = 320;
    pub const CLAUSES: usize = 4_096;
    pub const LEMMAS: usize = 128;

    /// k, the number of lemmas.
    pub fn k(&self) -> usize {
        self.lemmas.len()
    }

    /// The largest variable of any clause, 2n+m.
    pub fn variables(&self) -> usize {
        2 * self.n + self.m
    }

    /// How many clauses there are, lemmas with the rest.
    pub fn clauses(&self) -> usize {
        self.init.len() + self.tr.len() + self.bad.len() + self.lemmas.len()
    }

    /// The variables that a clause of this kind may name, by rising number.
    pub fn named_by(&self, kind: usize) -> Vec<usize> {
        (1..=self.variables()).filter(|&variable| self.is_in(class(kind, Rules::TRUE), variable)).collect()
    }

    /// 0 is in no class.
    fn is_in(&self, class: Variables, variable: usize) -> bool {
        let state = (1..=self.n).contains(&variable);
        let input = (2 * self.n + 1..=self.variables()).contains(&variable);
        match class {
            Variables::None => false,
            Variables::State => state,
            Variables::StateAndLastInput => state || (input && variable == self.variables()),
            Variables::StateAndInputs => state || input,
            Variables::All => (1..=self.variables()).contains(&variable),
        }
    }

    fn list(&mut self, kind: usize) -> &mut Vec<Clause> {
        match kind {
            INIT => &mut self.init,
            TR => &mut self.tr,
            BAD => &mut self.bad,
            _ => &mut self.lemmas,
        }
    }
}

pub const HEAD: usize = 1;
pub const INIT: usize = 2;
pub const TR: usize = 3;
pub const BAD: usize = 4;
pub const LEMMA: usize = 5;
pub const END: usize = 6;

/// The classes of variables that a kind may name. Only `All` has the next values; only a mutant has
/// `StateAndLastInput`.
#[derive(Clone, Copy)]
enum Variables {
    None,
    State,
    StateAndLastInput,
    StateAndInputs,
    All,
}

/// What a kind may hold: a body of an even number of bytes between two bounds, and which variables.
struct Kind {
    shortest: usize,
    longest: usize,
    variables: Variables,
}

const TABLE: [Kind; 6] = [
    Kind { shortest: 4, longest: 4, variables: Variables::None },
    Kind { shortest: 0, longest: 128, variables: Variables::State },
    Kind { shortest: 0, longest: 128, variables: Variables::All },
    Kind { shortest: 0, longest: 128, variables: Variables::StateAndInputs },
    Kind { shortest: 0, longest: 128, variables: Variables::State },
    Kind { shortest: 0, longest: 0, variables: Variables::None },
];

/// The class of a kind, as the table has it; mutants have another for Bad.
fn class(kind: usize, rules: Rules) -> Variables {
    match rules {
        Rules::BadNextLetThrough if kind == BAD => Variables::All,
        Rules::BadInputsRefused if kind == BAD => Variables::State,
        Rules::BadLastInputOnly if kind == BAD => Variables::StateAndLastInput,
        _ => TABLE[kind - 1].variables,
    }
}

/// A refusal of the file: its number and its place.
#[derive(Clone, Copy, PartialEq, Eq, Debug)]
pub struct Refusal {
    pub number: u32,
    pub place: usize,
}

/// A record's head, the kind before it (0 for none), and where its body would end.
struct Record<'a> {
    bytes: &'a [u8],
    place: usize,
    length: usize,
    kind: usize,
    before: usize,
}

/// The tests of one record after its head, in the order of the paper.
#[derive(Clone, Copy)]
enum Test {
    Kind,
    Length,
    Body,
    Count,
    Content,
}

fn order(rules: Rules) -> [Test; 5] {
    use Test::*;
    match rules {
        Rules::LengthBeforeKind => [Length, Kind, Body, Count, Content],
        Rules::BodyBeforeKind => [Body, Kind, Length, Count, Content],
        Rules::BodyBeforeLength => [Kind, Body, Length, Count, Content],
        Rules::CountBeforeBody => [Kind, Length, Count, Body, Content],
        Rules::ContentBeforeCount => [Kind, Length, Body, Content, Count],
        Rules::ContentLast => [Kind, Length, Body, Count, Count],
        _ => [Kind, Length, Body, Count, Content],
    }
}

fn two_bytes(bytes: &[u8], place: usize) -> u16 {
    u16::from_le_bytes([bytes[place], bytes[place + 1]])
}

impl Record<'_> {
    fn body(&self) -> usize {
        self.place + 4
    }

    fn refuse(&self, number: u32) -> Result<(), Refusal> {
        Err(Refusal { number, place: self.place })
    }

    fn test(&self, test: Test, problem: &Problem, rules: Rules) -> Result<(), Refusal> {
        match test {
            Test::Kind if !self.kind_is_allowed() => self.refuse(3),
            Test::Length if !self.length_is_allowed() => self.refuse(4),
            Test::Body if self.body() + self.length > self.bytes.len() => self.refuse(2),
            Test::Count if !self.count_is_allowed(problem) => self.refuse(7),
            Test::Content => self.content(problem, rules),
            _ => Ok(()),
        }
    }

    fn kind_is_allowed(&self) -> bool {
        let known = (HEAD..=END).contains(&self.kind);
        let first = self.before == 0;
        known && self.kind >= self.before && first == (self.kind == HEAD)
    }

    /// Only a mutant asks this of a kind that is not in the table; it then allows any length.
    fn length_is_allowed(&self) -> bool {
        let Some(row) = self.kind.checked_sub(1).and_then(|at| TABLE.get(at)) else {
            return true;
        };
        self.length.is_multiple_of(2) && (row.shortest..=row.longest).contains(&self.length)
    }

    fn count_is_allowed(&self, problem: &Problem) -> bool {
        let clause = (INIT..=LEMMA).contains(&self.kind);
        let too_many_clauses = clause && problem.clauses() == Problem::CLAUSES;
        let too_many_lemmas = self.kind == LEMMA && problem.k() == Problem::LEMMAS;
        !too_many_clauses && !too_many_lemmas
    }

    fn content(&self, problem: &Problem, rules: Rules) -> Result<(), Refusal> {
        if self.kind == HEAD {
            let n = two_bytes(self.bytes, self.body()) as usize;
            let m = two_bytes(self.bytes, self.body() + 2) as usize;
            let allowed = (1..=Problem::STATE).contains(&n) && m <= Problem::HELPERS;
            return if allowed { Ok(()) } else { self.refuse(5) };
        }
        let class = class(self.kind, rules);
        for (at, literal) in self.literals().into_iter().enumerate() {
            if !problem.is_in(class, literal.unsigned_abs() as usize) {
                return Err(Refusal { number: 6, place: self.body() + 2 * at });
            }
        }
        Ok(())
    }

    fn literals(&self) -> Clause {
        let body = &self.bytes[self.body()..self.body() + self.length];
        body.chunks(2).map(|pair| i16::from_le_bytes([pair[0], pair[1]])).collect()
    }
}

/// Reads a file, or gives the first refusal of it in the order of the paper.
pub fn read(bytes: &[u8], rules: Rules) -> Result<Problem, Refusal> {
    let too_long = bytes.len() > Problem::FILE_BYTES;
    if too_long && !rules.breaks(Rules::FileSizeLast) {
        return Err(Refusal { number: 1, place: 0 });
    }
    if rules.breaks(Rules::ContentLast) {
        read_records(bytes, rules)?;
        return read(bytes, Rules::TRUE);
    }
    let (problem, end) = read_records(bytes, rules)?;
    if too_long {
        return Err(Refusal { number: 1, place: 0 });
    }
    if end < bytes.len() && !rules.breaks(Rules::SpaceBeforeLaterBytes) {
        return Err(Refusal { number: 8, place: end });
    }
    Ok(problem)
}

/// Reads the records up to the end record; gives the problem and the place after that record.
fn read_records(bytes: &[u8], rules: Rules) -> Result<(Problem, usize), Refusal> {
    let mut problem = Problem::default();
    let mut place = 0;
    let mut before = 0;
    loop {
        if bytes.len() - place < 4 {
            return Err(Refusal { number: 2, place });
        }
        let length = two_bytes(bytes, place) as usize;
        let kind = two_bytes(bytes, place + 2) as usize;
        let record = Record { bytes, place, length, kind, before };
        for test in order(rules) {
            record.test(test, &problem, rules)?;
        }
        place = record.body() + length;
        before = kind;
        match kind {
            HEAD => {
                problem.n = two_bytes(bytes, record.body()) as usize;
                problem.m = two_bytes(bytes, record.body() + 2) as usize;
            }
            END if rules.breaks(Rules::GoesOnAfterEnd) && place < bytes.len() => {}
            END => return Ok((problem, place)),
            _ => problem.list(kind).push(record.literals()),
        }
    }
}
