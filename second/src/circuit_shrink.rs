//! Makes a call over circuits that shows a difference smaller, as long as the difference stays.

use crate::circuit_call::CircuitCall;
use crate::shrink::{less, shrink_by, smaller_lists, Each};

/// The work of one shrinking: less than for files, since texts of this sort start small or stay long.
const WORK: usize = 5_000;

/// The smallest call found from this one for which the test still holds.
pub fn shrink_circuit(call: CircuitCall, shows: &dyn Fn(&CircuitCall) -> bool) -> CircuitCall {
    shrink_by(call, smaller_calls, weight, WORK, shows)
}

/// The bytes of both texts, and more for each line over 500: a text of many lines takes long to read.
fn weight(call: &CircuitCall) -> usize {
    let lines = call.circuit.iter().filter(|&&byte| byte == b'\n').count();
    call.circuit.len() + call.lemmas.len() + 10 * lines.saturating_sub(500)
}

fn smaller_calls(call: &CircuitCall) -> Each<'_, CircuitCall> {
    let lemmas = smaller_texts(&call.lemmas).map(move |lemmas| CircuitCall { lemmas, ..call.clone() });
    let texts = fewer_definitions(&call.circuit).chain(smaller_texts(&call.circuit));
    let circuits = texts.map(move |circuit| CircuitCall { circuit, ..call.clone() });
    let spaces = less(call.space as u64).map(move |space| CircuitCall { space: space as usize, ..call.clone() });
    let budgets = less(call.budget as u64).map(move |budget| CircuitCall { budget: budget as u32, ..call.clone() });
    Box::new(lemmas.chain(circuits).chain(spaces).chain(budgets))
}

/// The text without a run of its lines, or without a run of its bytes.
fn smaller_texts(text: &[u8]) -> impl Iterator<Item = Vec<u8>> {
    let lines: Vec<Vec<u8>> = text.split_inclusive(|&byte| byte == b'\n').map(<[u8]>::to_vec).collect();
    let by_line = smaller_lists(lines).map(|lines| lines.concat());
    by_line.chain(smaller_lists(text.to_vec()))
}

/// The circuit text without a run of the lines that its header counts, long runs first, and with that count less.
fn fewer_definitions(text: &[u8]) -> impl Iterator<Item = Vec<u8>> {
    let lines: Vec<Vec<u8>> = text.split_inclusive(|&byte| byte == b'\n').map(<[u8]>::to_vec).collect();
    let header = String::from_utf8_lossy(lines.first().map_or(&[], |line| &line[..])).into_owned();
    let counts: Vec<usize> = header.split_whitespace().skip(2).map_while(|word| word.parse().ok()).collect();
    let mut runs = Vec::new();
    let mut before = 1;
    for section in SECTIONS.into_iter().filter(|&section| section < counts.len()) {
        let after = usize::min(lines.len(), counts[section].saturating_add(before));
        let halves = std::iter::successors(Some(after.saturating_sub(before)), |run| Some(run / 2));
        for run in halves.take_while(|&run| run > 0) {
            runs.extend((before..=after - run).step_by(run).map(|at| (run, section, at, after)));
        }
        let literals = if section == JUSTICE { sum(&lines[before..after]) } else { 0 };
        before = usize::min(lines.len(), after.saturating_add(literals));
    }
    runs.sort_by_key(|&(run, ..)| usize::MAX - run);
    runs.into_iter().map(move |(run, section, at, after)| {
        let fewer = (counts[section] - run).to_string();
        let words = header.split_whitespace().enumerate();
        let words: Vec<&str> = words.map(|(place, word)| if place == section + 2 { &fewer } else { word }).collect();
        // With justice counts their literals go too; any will do.
        let literals = if section == JUSTICE { sum(&lines[at..at + run]) } else { 0 };
        let rest = usize::min(lines.len(), after.saturating_add(literals));
        let kept = [&lines[1..at], &lines[at + run..after], &lines[rest..]].concat().concat();
        [words.join(" ").as_bytes(), b"\n", &kept].concat()
    })
}

/// The sections in the order of their lines, each by the place of its count after M in the header.
const SECTIONS: [usize; 8] = [0, 1, 2, 4, 5, JUSTICE, 7, 3];
const JUSTICE: usize = 6;

/// The sum of the counts in these lines.
fn sum(lines: &[Vec<u8>]) -> usize {
    let count = |line: &Vec<u8>| String::from_utf8_lossy(line).trim().parse::<usize>().unwrap_or(0);
    lines.iter().map(count).fold(0, usize::saturating_add)
}
