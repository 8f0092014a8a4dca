//! Makes a call that shows a difference smaller, as long as the difference stays.

use crate::file::{Clause, Problem};
use crate::subject::Call;
use crate::write::split;
use std::rc::Rc;

/// The work of one shrinking: a try costs 1, and 1 more for every 500 bytes of its file.
const WORK: usize = 50_000;

/// The smallest call found from this one, within the work allowed, for which the test still holds.
pub fn shrink(call: Call, shows: &dyn Fn(&Call) -> bool) -> Call {
    shrink_by(call, smaller_calls, |call| call.file.len(), WORK, shows)
}

/// The same for any call whose smaller ones and whose bytes are told, within so much work.
pub fn shrink_by<C>(
    call: C,
    smaller_calls: for<'a> fn(&'a C) -> Each<'a, C>,
    bytes: fn(&C) -> usize,
    most: usize,
    shows: &dyn Fn(&C) -> bool,
) -> C {
    let mut call = call;
    let mut work = 0;
    loop {
        let allowed = |smaller: &C| {
            work += 1 + bytes(smaller) / 500;
            work <= most
        };
        let smaller = smaller_calls(&call).take_while(allowed).find(|smaller| shows(smaller));
        match smaller {
            Some(smaller) => call = smaller,
            None => return call,
        }
    }
}

pub type Each<'a, T> = Box<dyn Iterator<Item = T> + 'a>;

fn smaller_calls(call: &Call) -> Each<'_, Call> {
    let files: Each<Vec<u8>> = match call.problem() {
        Some(problem) => Box::new(smaller_problems(problem).map(|smaller| smaller.to_bytes())),
        None => Box::new(smaller_bytes(&call.file)),
    };
    let by_file = files.map(move |file| Call { file, ..call.clone() });
    let spaces = less(call.space as u64).map(move |space| Call { space: space as usize, ..call.clone() });
    let budgets = less(call.budget as u64).map(move |budget| Call { budget: budget as u32, ..call.clone() });
    Box::new(by_file.chain(spaces).chain(budgets))
}

pub fn less(number: u64) -> impl Iterator<Item = u64> {
    let some = [0, number / 2, number.saturating_sub(1)];
    some.into_iter().filter(move |&smaller| smaller < number)
}

/// The file without a run of its records, or without a run of its bytes.
fn smaller_bytes(file: &[u8]) -> impl Iterator<Item = Vec<u8>> {
    let by_record = smaller_lists(split(file)).map(|records| records.concat());
    by_record.chain(smaller_lists(file.to_vec()))
}

/// The list without a run of its items, long runs first.
pub fn smaller_lists<T: Clone>(list: Vec<T>) -> impl Iterator<Item = Vec<T>> {
    let halves = std::iter::successors(Some(list.len()), |run| Some(run / 2));
    let runs = halves.take_while(|&run| run > 0);
    let list = Rc::new(list);
    runs.flat_map(move |run| {
        let list = Rc::clone(&list);
        let starts = (0..=list.len() - run).step_by(run.div_ceil(2));
        starts.map(move |start| [&list[..start], &list[start + run..]].concat())
    })
}

/// Each problem with a run of clauses, a variable or a run of literals less.
fn smaller_problems(problem: Problem) -> impl Iterator<Item = Problem> {
    let states = (1..=problem.n).filter(|_| problem.n > 1).collect::<Vec<usize>>().into_iter();
    let helpers = 2 * problem.n + 1..=problem.variables();
    let whole = Rc::new(problem);
    let (a, b, c, d) = (whole.clone(), whole.clone(), whole.clone(), whole);
    let by_clause = (0..4).flat_map(move |list| {
        let whole = a.clone();
        let smaller = smaller_lists(list_of(&mut Problem::clone(&whole), list).clone());
        smaller.map(move |clauses| with_list(&whole, list, clauses))
    });
    let by_state = states.map(move |v| without_state(&b, v));
    let by_helper = helpers.map(move |v| without_helper(&c, v));
    let by_literal = (0..4).flat_map(move |list| {
        let whole = d.clone();
        let count = list_of(&mut Problem::clone(&whole), list).len();
        (0..count).flat_map(move |at| with_shorter_clause(&whole, list, at))
    });
    by_clause.chain(by_state).chain(by_helper).chain(by_literal)
}

fn with_shorter_clause(whole: &Rc<Problem>, list: usize, at: usize) -> impl Iterator<Item = Problem> {
    let whole = whole.clone();
    let clauses = list_of(&mut Problem::clone(&whole), list).clone();
    smaller_lists(clauses[at].clone()).map(move |clause| {
        let mut changed = clauses.clone();
        changed[at] = clause;
        with_list(&whole, list, changed)
    })
}

fn list_of(problem: &mut Problem, list: usize) -> &mut Vec<Clause> {
    match list {
        0 => &mut problem.init,
        1 => &mut problem.tr,
        2 => &mut problem.bad,
        _ => &mut problem.lemmas,
    }
}

fn with_list(problem: &Problem, list: usize, clauses: Vec<Clause>) -> Problem {
    let mut changed = problem.clone();
    *list_of(&mut changed, list) = clauses;
    changed
}

fn without_state(problem: &Problem, v: usize) -> Problem {
    let mut smaller = problem.clone();
    take_out(&mut smaller, problem.n + v);
    take_out(&mut smaller, v);
    smaller.n -= 1;
    smaller
}

fn without_helper(problem: &Problem, v: usize) -> Problem {
    let mut smaller = problem.clone();
    take_out(&mut smaller, v);
    smaller.m -= 1;
    smaller
}

/// Takes out every literal of a variable and closes the gap in the numbers.
fn take_out(problem: &mut Problem, v: usize) {
    for list in 0..4 {
        for clause in list_of(problem, list) {
            clause.retain(|literal| literal.unsigned_abs() as usize != v);
            for literal in clause.iter_mut().filter(|literal| literal.unsigned_abs() as usize > v) {
                *literal -= literal.signum();
            }
        }
    }
}
