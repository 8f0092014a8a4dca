//! Random numbers from a seed (splitmix64), and random problems with every oddity the format allows.

use crate::file::{Clause, Problem, BAD, INIT, LEMMA, TR};

pub struct Random(pub u64);

impl Random {
    pub fn number(&mut self) -> u64 {
        self.0 = self.0.wrapping_add(0x9E37_79B9_7F4A_7C15);
        let mut z = self.0;
        z = (z ^ (z >> 30)).wrapping_mul(0xBF58_476D_1CE4_E5B9);
        z = (z ^ (z >> 27)).wrapping_mul(0x94D0_49BB_1331_11EB);
        z ^ (z >> 31)
    }

    /// A number below the bound, which is not 0.
    pub fn below(&mut self, bound: usize) -> usize {
        (self.number() % bound as u64) as usize
    }

    /// True once in so many times.
    pub fn once_in(&mut self, times: usize) -> bool {
        self.below(times) == 0
    }
}

/// The largest sizes a random problem may have.
#[derive(Clone, Copy)]
pub struct Sizes {
    pub n: usize,
    pub m: usize,
    pub clauses: usize,
    pub lemmas: usize,
    pub literals: usize,
}

pub const SMALL: Sizes = Sizes { n: 3, m: 2, clauses: 5, lemmas: 5, literals: 4 };

/// A random problem: as the next one, and in about half of those with inputs and helpers Bad names them.
pub fn problem(random: &mut Random, sizes: Sizes) -> Problem {
    let mut result = problem_with_state_bad(random, sizes);
    if result.m > 0 && random.once_in(2) {
        name_inputs_in_bad(random, &mut result);
    }
    result
}

/// A random problem: some kinds are left out, some clauses empty or equal, some literals repeated. Bad names the
/// state alone.
pub fn problem_with_state_bad(random: &mut Random, sizes: Sizes) -> Problem {
    let n = 1 + random.below(sizes.n);
    let m = random.below(sizes.m + 1);
    let mut result = Problem { n, m, ..Problem::default() };
    if !random.once_in(10) {
        result.init = init(random, &result, sizes);
    }
    if !random.once_in(10) {
        result.tr = tr(random, &result, sizes);
    }
    let count = random.below(sizes.lemmas + 1);
    result.lemmas = clauses(random, &result.named_by(LEMMA), count, 1 + sizes.literals / 2);
    lean_to_init(random, &mut result);
    if !random.once_in(12) {
        result.bad = bad(random, &result);
    }
    if random.once_in(10) {
        hold_nowhere(random, &mut result);
    }
    result
}

/// No Init state, and one lemma that never holds: every set with it is safe and inductive.
fn hold_nowhere(random: &mut Random, problem: &mut Problem) {
    problem.init.push(vec![]);
    if problem.k() > 0 {
        let p = random.below(problem.k());
        problem.lemmas[p] = vec![];
    }
}

/// Turns some literals of the lemmas to what Init says of them, so that more lemmas hold there.
fn lean_to_init(random: &mut Random, problem: &mut Problem) {
    for literal in problem.lemmas.iter_mut().flatten() {
        if problem.init.contains(&vec![-*literal]) && !random.once_in(4) {
            *literal = -*literal;
        }
    }
}

/// Bad of the state: mostly clauses that lemmas speak against, else any clauses, or two that never hold together.
fn bad(random: &mut Random, problem: &Problem) -> Vec<Clause> {
    let state = problem.named_by(LEMMA);
    if random.once_in(12) {
        return never(literal(random, &state)).to_vec();
    }
    let count = 1 + random.below(3);
    if problem.k() == 0 || random.once_in(3) {
        return clauses(random, &state, count, 2);
    }
    let mut result = Vec::new();
    for _ in 0..count {
        let negated: Clause = (0..1 + random.below(2))
            .filter_map(|_| problem.lemmas[random.below(problem.k())].first().map(|&literal| -literal))
            .collect();
        result.push(negated);
    }
    result
}

/// Two clauses that never hold together.
fn never(literal: i16) -> [Clause; 2] {
    [vec![literal, literal], vec![-literal, -literal]]
}

/// Puts inputs and helpers into Bad: into the clauses it has, in clauses of their own, as a gate, in two that never
/// hold together, or in clauses of any literals.
fn name_inputs_in_bad(random: &mut Random, problem: &mut Problem) {
    let named = problem.named_by(BAD);
    let inputs = &named[problem.n..];
    match random.below(12) {
        0..=3 => mix_in(random, inputs, &mut problem.bad),
        4..=5 => add_anywhere(random, inputs, &mut problem.bad),
        6..=7 => {
            mix_in(random, inputs, &mut problem.bad);
            add_anywhere(random, inputs, &mut problem.bad);
        }
        8..=9 => problem.bad = gate(random, inputs, &named, &problem.bad),
        10 => problem.bad.extend(never(literal(random, inputs))),
        _ => {
            let count = 1 + random.below(4);
            problem.bad = clauses(random, &named, count, 3);
        }
    }
}

/// Puts literals of inputs at any place of most clauses, some of them twice or with their negation.
fn mix_in(random: &mut Random, inputs: &[usize], bad: &mut [Clause]) {
    for clause in bad {
        if random.once_in(4) {
            continue;
        }
        let input = literal(random, inputs);
        let more = match random.below(8) {
            0 => vec![input, input],
            1 => vec![input, -input],
            _ => vec![input],
        };
        for next in more {
            let place = random.below(clause.len() + 1);
            clause.insert(place, next);
        }
    }
}

/// Puts clauses of inputs alone at any place of Bad.
fn add_anywhere(random: &mut Random, inputs: &[usize], bad: &mut Vec<Clause>) {
    let count = 1 + random.below(2);
    for clause in clauses(random, inputs, count, 2) {
        let place = random.below(bad.len() + 1);
        bad.insert(place, clause);
    }
}

/// Bad as a circuit gives it: a gate of two literals, the first mostly one that Bad had, and the gate or its negation.
fn gate(random: &mut Random, inputs: &[usize], named: &[usize], bad: &[Clause]) -> Vec<Clause> {
    let gate = literal(random, inputs);
    let had = bad.first().and_then(|clause| clause.first());
    let a = had.copied().unwrap_or_else(|| literal(random, named));
    let b = literal(random, named);
    let output = if random.once_in(4) { -gate } else { gate };
    vec![vec![-gate, a], vec![-gate, b], vec![gate, -a, -b], vec![output]]
}

/// Init: mostly one value for each of some state variables, else any clauses.
fn init(random: &mut Random, problem: &Problem, sizes: Sizes) -> Vec<Clause> {
    let state = problem.named_by(INIT);
    if random.once_in(3) {
        let count = random.below(sizes.clauses + 1);
        return clauses(random, &state, count, sizes.literals);
    }
    let known: Vec<usize> = state.into_iter().filter(|_| !random.once_in(5)).collect();
    known.into_iter().map(|v| vec![signed(random, v)]).collect()
}

/// Tr: next values equal to a literal, or to it only where another holds, and a few clauses besides.
fn tr(random: &mut Random, problem: &Problem, sizes: Sizes) -> Vec<Clause> {
    let named = problem.named_by(TR);
    let state = &named[..problem.n];
    let mut result = Vec::new();
    if !random.once_in(4) {
        for v in state {
            let next = (problem.n + v) as i16;
            let from = literal(random, state);
            let mut pair = [vec![-next, from], vec![next, -from]];
            if random.once_in(3) {
                let guard = literal(random, &named);
                pair.iter_mut().for_each(|clause| clause.push(guard));
            }
            result.extend(pair.into_iter().filter(|_| !random.once_in(9)));
        }
    }
    let most = if result.is_empty() { sizes.clauses } else { sizes.clauses / 2 };
    let count = random.below(most + 1);
    let more = clauses(random, &named, count, sizes.literals);
    result.extend(more);
    result
}

fn clauses(random: &mut Random, variables: &[usize], count: usize, literals: usize) -> Vec<Clause> {
    let mut result: Vec<Clause> = Vec::new();
    for _ in 0..count {
        let equal = !result.is_empty() && random.once_in(10);
        let next = if equal { result[random.below(result.len())].clone() } else { clause(random, variables, literals) };
        result.push(next);
    }
    result
}

fn clause(random: &mut Random, variables: &[usize], literals: usize) -> Clause {
    let length = if random.once_in(25) { 0 } else { 1 + random.below(literals) };
    let mut result = Clause::new();
    for _ in 0..length {
        let next = match (result.last(), random.below(12)) {
            (Some(&last), 0) => last,
            (Some(&last), 1) => -last,
            _ => literal(random, variables),
        };
        result.push(next);
    }
    result
}

fn literal(random: &mut Random, variables: &[usize]) -> i16 {
    let variable = variables[random.below(variables.len())];
    signed(random, variable)
}

fn signed(random: &mut Random, variable: usize) -> i16 {
    if random.once_in(2) {
        -(variable as i16)
    } else {
        variable as i16
    }
}
