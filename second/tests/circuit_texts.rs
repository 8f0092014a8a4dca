//! Stored pairs of circuit text and lemma text: the refused ones with number and place, and of those that are read the
//! problem.

use second::circuit_accepted::all_accepted;
use second::circuit_jobs::{call, CircuitJob};
use second::circuit_problem::read;
use second::file::{self, Refusal};
use second::jobs::Report;
use second::mutants::Rules;
use second::notation::problem;
use std::fs;
use std::path::PathBuf;

const UNTOUCHED: u8 = 0xA5;
/// The longest file of a problem that a circuit gives.
const MOST_BYTES: usize = 46_220;

fn circuits() -> PathBuf {
    PathBuf::from(env!("CARGO_MANIFEST_DIR")).join("../cases/circuits")
}

/// The texts of a stored pair. An empty lemma text has no file.
fn pair(name: &str) -> [Vec<u8>; 2] {
    let circuit = fs::read(circuits().join(format!("{name}.aag"))).expect("the circuit is stored");
    [circuit, fs::read(circuits().join(format!("{name}.lemmas"))).unwrap_or_default()]
}

fn index(folder: &str) -> Vec<String> {
    let text = fs::read_to_string(circuits().join(folder).join("INDEX.txt")).expect("the index is there");
    text.lines().filter(|line| !line.starts_with('#')).map(str::to_string).collect()
}

#[test]
fn refused_pairs_are_refused_by_every_job_as_stored() {
    let lines = index("refusals");
    let mut seen = [0; 3];
    for line in &lines {
        let words: Vec<&str> = line.split(' ').collect();
        let [circuit, lemmas] = pair(&format!("refusals/{}", words[0]));
        let number: u64 = words[1].parse().expect("a number");
        let place = words[2].parse().expect("a place");
        seen[number as usize - 13] += 1;
        for job in CircuitJob::ALL {
            for space in [0, 4] {
                let mut lent = vec![UNTOUCHED; space];
                let report = call(job, [&circuit, &lemmas], u32::MAX, &mut lent, Rules::TRUE);
                assert_eq!(report, Report { number, place, ..Report::default() }, "{line}");
                assert!(lent.iter().all(|&byte| byte == UNTOUCHED), "{line}");
            }
        }
    }
    assert!(seen[0] >= 180 && seen[1] >= 30 && seen[2] >= 15, "{seen:?}");
}

#[test]
fn pairs_that_are_read_give_the_problem_written_down() {
    for accepted in all_accepted() {
        let name = &accepted.sample.name;
        let [circuit, lemmas] = pair(&format!("read/{name}"));
        let built = read(&circuit, &lemmas, Rules::TRUE).unwrap_or_else(|refusal| panic!("{name}: {refusal:?}"));
        if !accepted.built.is_empty() {
            assert_eq!(built, problem(accepted.built), "{name}");
        }
        let (n, m, k) = (built.n as u64, built.m as u64, built.k() as u64);
        let sizes = Report { n, m, k, ..Report::default() };
        assert_eq!(call(CircuitJob::Check, [&circuit, &lemmas], 0, &mut [], Rules::TRUE), sizes, "{name}");
        written(name, [&circuit, &lemmas], &built.to_bytes(), sizes);
    }
}

/// The job that writes the problem's file writes it whole into the first bytes, or refuses by 12 and writes nothing.
fn written(name: &str, texts: [&[u8]; 2], file: &[u8], sizes: Report) {
    assert!(file.len() <= MOST_BYTES, "{name}");
    assert!(file::read(file, Rules::TRUE).is_ok(), "{name}");
    let mut lent = vec![UNTOUCHED; file.len() + 1];
    let told = Report { rows: file.len() as u64, ..sizes };
    assert_eq!(call(CircuitJob::Problem, texts, 0, &mut lent, Rules::TRUE), told, "{name}");
    assert_eq!(lent, [file, &[UNTOUCHED]].concat(), "{name}");
    let mut short = vec![UNTOUCHED; file.len() - 1];
    let refusal = Report { number: 12, ..Report::default() };
    assert_eq!(call(CircuitJob::Problem, texts, 0, &mut short, Rules::TRUE), refusal, "{name}");
    assert!(short.iter().all(|&byte| byte == UNTOUCHED), "{name}");
}

#[test]
fn the_longest_file_is_reached_with_all_clauses_there_may_be() {
    let [circuit, lemmas] = pair("read/newer-most");
    let built = read(&circuit, &lemmas, Rules::TRUE).expect("it is read");
    assert_eq!((built.n, built.m, built.k(), built.clauses()), (96, 320, 128, 4_096));
    assert_eq!(built.to_bytes().len(), MOST_BYTES);
}

#[test]
fn every_stored_text_has_its_line() {
    for (folder, end) in [("refusals", ' '), ("read", ':')] {
        let lines = index(folder);
        let files = fs::read_dir(circuits().join(folder)).expect("the folder is there");
        for file in files.map(|file| file.expect("an entry").path()) {
            let name = file.file_stem().and_then(|name| name.to_str()).expect("a name");
            assert!(name == "INDEX" || lines.iter().any(|line| line.starts_with(&format!("{name}{end}"))), "{name}");
        }
    }
}

#[test]
fn every_cut_of_a_circuit_is_refused_at_the_line_that_is_cut_or_missing() {
    cut_everywhere("read/orders", b"l0 a\ni1 b\nc\nd");
    cut_everywhere("read/newer-orders", b"c1 a\nb0 b\nl0 c\nc\nc1");
}

/// The pair has two latches; what is put after its gates are symbols and a comment.
fn cut_everywhere(name: &str, more: &[u8]) {
    let [circuit, _] = pair(name);
    let whole = [&circuit[..], more].concat();
    let ends: Vec<usize> = (0..whole.len()).filter(|&at| whole[at] == b'\n').map(|at| at + 1).collect();
    let lines = circuit.iter().filter(|&&byte| byte == b'\n').count();
    for length in 0..=whole.len() {
        let start = ends.iter().copied().rfind(|&end| end <= length).unwrap_or(0);
        let commented = length >= ends[ends.len() - 1];
        let complete = length >= ends[lines - 1] && (start == length || commented);
        let refusal = Err(Refusal { number: 13, place: start });
        let found = read(&whole[..length], b"", Rules::TRUE).map(|problem| problem.n);
        assert_eq!(found, if complete { Ok(2) } else { refusal }, "{length}");
    }
}

#[test]
fn every_cut_of_a_lemma_text_is_refused_at_the_line_that_is_cut() {
    let [circuit, _] = pair("read/orders");
    let whole = b"1 -2 0\n0\n-01 2 1 00\n";
    for length in 0..=whole.len() {
        let start = whole[..length].iter().rposition(|&byte| byte == b'\n').map_or(0, |at| at + 1);
        let lines = whole[..start].iter().filter(|&&byte| byte == b'\n').count();
        let found = read(&circuit, &whole[..length], Rules::TRUE).map(|problem| problem.k());
        let refusal = Err(Refusal { number: 13, place: start });
        assert_eq!(found, if start == length { Ok(lines) } else { refusal }, "{length}");
    }
}
