//! Case L byte by byte, the limits of case M and of the format both sides, what each kind may name, and
//! each file refusal.

use second::bench::case;
use second::file::{read, Problem, Refusal, BAD, END, HEAD, INIT, LEMMA, TR};
use second::jobs::{check, Report};
use second::mutants::Rules;
use second::notation::problem;
use second::write::record;

fn accepted(file: &[u8]) -> Problem {
    read(file, Rules::TRUE).expect("the file is accepted")
}

fn refused(file: &[u8], number: u32, place: usize) {
    assert_eq!(read(file, Rules::TRUE), Err(Refusal { number, place }));
    let report = Report { number: number as u64, place: place as u64, ..Report::default() };
    assert_eq!(check(file, Rules::TRUE), report);
}

#[test]
fn l_is_these_46_bytes() {
    let bytes: [u8; 46] = [
        0x04, 0x00, 0x01, 0x00, 0x01, 0x00, 0x00, 0x00, //
        0x02, 0x00, 0x02, 0x00, 0x01, 0x00, //
        0x04, 0x00, 0x03, 0x00, 0xFE, 0xFF, 0x01, 0x00, //
        0x04, 0x00, 0x03, 0x00, 0x02, 0x00, 0xFF, 0xFF, //
        0x02, 0x00, 0x04, 0x00, 0xFF, 0xFF, //
        0x02, 0x00, 0x05, 0x00, 0x01, 0x00, //
        0x00, 0x00, 0x06, 0x00,
    ];
    assert_eq!(case("L").file(), bytes);
    assert_eq!(accepted(&bytes), case("L").problem());
    let sizes = Report { n: 1, m: 0, k: 1, ..Report::default() };
    assert_eq!(check(&bytes, Rules::TRUE), sizes);
    refused(&bytes[..45], 2, 42);
    refused(&[&bytes[..], &[0]].concat(), 8, 46);
}

#[test]
fn every_cut_of_l_is_refused_where_the_cut_record_starts() {
    let file = case("L").file();
    let starts = [0, 8, 14, 22, 30, 36, 42];
    for length in 0..file.len() {
        let start = starts.into_iter().rfind(|&start| start <= length);
        refused(&file[..length], 2, start.expect("the first record starts at 0"));
    }
}

#[test]
fn m_n_96_is_read_and_97_refused() {
    assert_eq!(accepted(&problem("n=96 m=0").to_bytes()).n, 96);
    refused(&problem("n=97 m=0").to_bytes(), 5, 0);
    refused(&problem("n=0 m=0").to_bytes(), 5, 0);
    assert_eq!(accepted(&problem("n=1 m=320").to_bytes()).m, 320);
    refused(&problem("n=1 m=321").to_bytes(), 5, 0);
}

#[test]
fn m_128_lemmas_are_read_and_129_refused() {
    let mut many = problem("n=1 m=0");
    many.lemmas = vec![vec![1]; 128];
    assert_eq!(accepted(&many.to_bytes()).k(), 128);
    many.lemmas.push(vec![1]);
    refused(&many.to_bytes(), 7, 8 + 128 * 6);
}

#[test]
fn m_the_literal_without_a_positive_is_refused() {
    refused(&problem("n=1 m=0; Init (-32768)").to_bytes(), 6, 12);
    refused(&problem("n=1 m=0; Init (1 0)").to_bytes(), 6, 14);
}

#[test]
fn variables_are_read_up_to_the_largest_of_their_kind() {
    let largest = "n=2 m=3; Init (2 -2); Tr (7 -7); Bad (-2 7); lemmas (2)";
    assert_eq!(accepted(&problem(largest).to_bytes()), problem(largest));
    refused(&problem("n=2 m=3; Init (-3)").to_bytes(), 6, 12);
    refused(&problem("n=2 m=3; Tr (7)(-8)").to_bytes(), 6, 18);
    refused(&problem("n=2 m=3; Bad (3)").to_bytes(), 6, 12);
    refused(&problem("n=2 m=3; lemmas (1 3)").to_bytes(), 6, 14);
}

/// A file of these sizes whose only clause is of this kind.
fn with_clause(n: i16, m: i16, kind: usize, clause: &[i16]) -> Vec<u8> {
    [record(HEAD, &[n, m]), record(kind, clause), record(END, &[])].concat()
}

/// A literal that may stand in a clause of this kind is read; any other is refused at its place, first or second.
fn named(n: i16, m: i16, kind: usize, literal: i16, allowed: bool) {
    let alone = with_clause(n, m, kind, &[literal]);
    let second = with_clause(n, m, kind, &[-1, literal]);
    if allowed {
        accepted(&alone);
        accepted(&second);
        return;
    }
    refused(&alone, 6, 12);
    refused(&second, 6, 14);
}

#[test]
fn bad_names_state_and_inputs_and_nothing_else() {
    for (n, m) in [(1, 0), (2, 0), (1, 1), (2, 1), (3, 2), (2, 5), (96, 0), (96, 320)] {
        for variable in 0..=2 * n + m + 2 {
            let allowed = (1..=n).contains(&variable) || (2 * n + 1..=2 * n + m).contains(&variable);
            named(n, m, BAD, variable, allowed);
            named(n, m, BAD, -variable, allowed);
        }
        named(n, m, BAD, i16::MAX, false);
        named(n, m, BAD, i16::MIN, false);
    }
}

#[test]
fn init_and_lemmas_name_the_state_alone_and_tr_all() {
    for (n, m) in [(1, 0), (1, 1), (3, 2), (96, 320)] {
        for variable in 0..=2 * n + m + 2 {
            for kind in [INIT, LEMMA] {
                named(n, m, kind, variable, (1..=n).contains(&variable));
                named(n, m, kind, -variable, (1..=n).contains(&variable));
            }
            named(n, m, TR, variable, (1..=2 * n + m).contains(&variable));
            named(n, m, TR, -variable, (1..=2 * n + m).contains(&variable));
        }
    }
}

#[test]
fn the_table_says_what_the_reader_does() {
    for (n, m) in [(1, 0), (3, 2)] {
        let sizes = Problem { n: n as usize, m: m as usize, ..Problem::default() };
        for kind in [INIT, TR, BAD, LEMMA] {
            let is_read = |&variable: &usize| {
                let file = with_clause(n, m, kind, &[variable as i16]);
                read(&file, Rules::TRUE).is_ok()
            };
            let all_read: Vec<usize> = (0..=sizes.variables() + 2).filter(is_read).collect();
            assert_eq!(sizes.named_by(kind), all_read);
        }
    }
}

#[test]
fn clauses_are_read_up_to_4096_of_all_kinds() {
    let mut many = problem("n=1 m=0; Bad (); lemmas ()");
    many.init = vec![vec![]; 2_000];
    many.tr = vec![vec![]; 2_094];
    assert_eq!(accepted(&many.to_bytes()), many);
    many.tr.push(vec![]);
    refused(&many.to_bytes(), 7, 8 + 4 * 4_096);
    many.lemmas.push(vec![]);
    refused(&many.to_bytes(), 7, 8 + 4 * 4_096);
}

#[test]
fn a_file_of_65536_bytes_is_read_and_one_more_refused() {
    let mut big = problem("n=1 m=0");
    big.tr = vec![vec![1; 64]; 496];
    big.tr.push(vec![1; 28]);
    assert_eq!(big.to_bytes().len(), 65_544);
    big.tr.last_mut().expect("a last clause").truncate(24);
    let file = big.to_bytes();
    assert_eq!(file.len(), 65_536);
    assert_eq!(accepted(&file), big);
    refused(&[&file[..], &[0]].concat(), 1, 0);
}

#[test]
fn body_lengths_are_read_by_kind() {
    let long = |literals: usize| [problem("n=1 m=0").to_bytes()[..8].to_vec(), record(2, &vec![1; literals])];
    let end = record(6, &[]);
    assert_eq!(accepted(&[long(64).concat(), end.clone()].concat()).init, [[1; 64]]);
    refused(&[long(65).concat(), end.clone()].concat(), 4, 8);
    refused(&[long(64).concat(), record(6, &[1])].concat(), 4, 8 + 132);
    refused(&record(1, &[1]), 4, 0);
    refused(&record(1, &[1, 0, 0]), 4, 0);
    refused(&[record(1, &[1, 0]), vec![1, 0, 2, 0, 1], end].concat(), 4, 8);
}
