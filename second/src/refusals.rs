//! Files that pin each file refusal with its place, and the order of any two that one file can meet.

use crate::bench::case;
use crate::file::{Problem, BAD, END, HEAD, INIT, LEMMA, TR};
use crate::write::record;

/// A refused file: its name, what it is, and the number and place of its refusal.
pub struct Refused {
    pub name: &'static str,
    pub line: &'static str,
    pub file: Vec<u8>,
    pub number: u64,
    pub place: u64,
}

/// The whole collection: one fault alone, two in one record, two in two records, long files, and literals that a
/// Bad clause may not hold.
pub fn refusals() -> Vec<Refused> {
    let groups = [alone(), in_one_record(), after_a_bad_head(), after_a_bad_clause(), over_size()];
    groups.into_iter().flatten().chain(around_bad()).collect()
}

fn refused(name: &'static str, line: &'static str, parts: &[&[u8]], number: u64, place: u64) -> Refused {
    Refused { name, line, file: parts.concat(), number, place }
}

fn head() -> Vec<u8> {
    record(HEAD, &[1, 0])
}

fn end() -> Vec<u8> {
    record(END, &[])
}

/// A record whose length says something else than its body.
fn odd(kind: usize, length: u16, body: &[u8]) -> Vec<u8> {
    let mut bytes = length.to_le_bytes().to_vec();
    bytes.extend((kind as u16).to_le_bytes());
    bytes.extend(body);
    bytes
}

/// A head and as many lemmas as a file may have: 776 bytes.
fn full_of_lemmas() -> Vec<u8> {
    [head(), record(LEMMA, &[1]).repeat(Problem::LEMMAS)].concat()
}

/// A head and as many clauses as a file may have, Tr and empty: 16,392 bytes.
fn full_of_clauses() -> Vec<u8> {
    [head(), record(TR, &[]).repeat(Problem::CLAUSES)].concat()
}

fn alone() -> Vec<Refused> {
    let l = case("L").file();
    let odd_clause = odd(INIT, 1, &[1]);
    vec![
        refused("2-empty", "no byte at all", &[], 2, 0),
        refused("2-head", "L without its last byte", &[&l[..45]], 2, 42),
        refused("2-no-end", "L without its end record", &[&l[..42]], 2, 42),
        refused("2-body", "L cut in the body of its first Tr clause", &[&l[..19]], 2, 14),
        refused("3-first", "a first record that is not kind 1", &[&record(INIT, &[1]), &end()], 3, 0),
        refused("3-zero", "kind 0", &[&head(), &record(0, &[])], 3, 8),
        refused("3-seven", "kind 7", &[&head(), &record(7, &[])], 3, 8),
        refused("3-high", "kind 0x0102, whose low byte is 2", &[&head(), &record(0x102, &[1]), &end()], 3, 8),
        refused("3-second", "a second kind 1", &[&head(), &head(), &end()], 3, 8),
        refused("3-lower", "Tr after Bad", &[&head(), &record(BAD, &[1]), &record(TR, &[1]), &end()], 3, 14),
        refused("4-odd", "a clause of one byte", &[&head(), &odd_clause, &end()], 4, 8),
        refused("4-long", "a clause of 65 literals", &[&head(), &record(INIT, &[1; 65]), &end()], 4, 8),
        refused("4-short-head", "a kind 1 of two bytes", &[&record(HEAD, &[1]), &end()], 4, 0),
        refused("4-end", "an end record of two bytes", &[&head(), &record(END, &[1])], 4, 8),
        refused("5-n-zero", "n is 0", &[&record(HEAD, &[0, 0]), &end()], 5, 0),
        refused("5-n", "n is 97 (M)", &[&record(HEAD, &[97, 0]), &end()], 5, 0),
        refused("5-m", "m is 321", &[&record(HEAD, &[1, 321]), &end()], 5, 0),
        refused("6-zero", "literal 0 in the second place", &[&head(), &record(INIT, &[1, 0]), &end()], 6, 14),
        refused("6-large", "Init with a next value", &[&head(), &record(INIT, &[2]), &end()], 6, 12),
        refused("6-least", "literal -32768 (M)", &[&head(), &record(TR, &[-32768]), &end()], 6, 12),
        refused("6-two", "two literals that offend: the first counts", &[&head(), &record(BAD, &[1, -2, 0]), &end()], 6, 14),
        refused("7-lemmas", "129 lemmas (M)", &[&full_of_lemmas(), &record(LEMMA, &[1]), &end()], 7, 776),
        refused("7-clauses", "4,097 clauses", &[&full_of_clauses(), &record(BAD, &[]), &end()], 7, 16_392),
        refused("8", "L with one byte more", &[&l, &[0]], 8, 46),
    ]
}

fn in_one_record() -> Vec<Refused> {
    let full = full_of_lemmas();
    let clauses = full_of_clauses();
    let cut = odd(LEMMA, 2, &[1]);
    let l = case("L").file();
    vec![
        refused("3-before-4", "first record kind 2, of three bytes", &[&odd(INIT, 3, &[1, 0, 0])], 3, 0),
        refused("3-before-2", "kind 7 with a body past the end", &[&head(), &odd(7, 2, &[])], 3, 8),
        refused("3-before-7", "Init after 4,096 Tr clauses", &[&clauses, &record(INIT, &[]), &end()], 3, 16_392),
        refused("3-before-5", "a second kind 1, with n 0", &[&head(), &record(HEAD, &[0, 0]), &end()], 3, 8),
        refused(
            "3-before-6",
            "Init after Tr, with literal 0",
            &[&head(), &record(TR, &[]), &record(INIT, &[0])],
            3,
            12,
        ),
        refused("4-before-2", "a clause of three bytes past the end", &[&head(), &odd(INIT, 3, &[1, 0])], 4, 8),
        refused("4-before-7", "a 129th lemma of one byte", &[&full, &odd(LEMMA, 1, &[1]), &end()], 4, 776),
        refused("4-before-5", "a kind 1 of six bytes with n 0", &[&record(HEAD, &[0, 0, 0]), &end()], 4, 0),
        refused(
            "4-before-6",
            "a clause of three bytes with literal 0",
            &[&head(), &odd(INIT, 3, &[0, 0, 1]), &end()],
            4,
            8,
        ),
        refused("4-before-8", "an end record with a body", &[&head(), &odd(END, 1, &[0])], 4, 8),
        refused("2-before-7", "a 129th lemma past the end", &[&full, &cut], 2, 776),
        refused("2-before-5", "a kind 1 past the end, with n 0", &[&odd(HEAD, 4, &[0, 0])], 2, 0),
        refused("2-before-6", "a clause past the end, with literal 0", &[&head(), &odd(INIT, 4, &[0, 0])], 2, 8),
        refused("7-before-6", "a 129th lemma with literal 0", &[&full, &record(LEMMA, &[0]), &end()], 7, 776),
        refused("8-not-2", "three bytes after the end record", &[&l, &[0, 0, 6]], 8, 46),
        refused("8-not-3", "a kind 2 after the end record", &[&l, &record(INIT, &[1])], 8, 46),
        refused("8-not-a-second-end", "a second end record", &[&l, &end()], 8, 46),
    ]
}

/// n or m out of range, then a fault of a later record.
fn after_a_bad_head() -> Vec<Refused> {
    let none = record(HEAD, &[0, 0]);
    let many = record(LEMMA, &[]).repeat(Problem::LEMMAS + 1);
    let large = record(HEAD, &[97, 0]);
    vec![
        refused("5-then-2", "n 0, then no record", &[&none], 5, 0),
        refused("5-then-3", "n 0, then kind 7", &[&none, &record(7, &[])], 5, 0),
        refused("5-then-4", "n 0, then a clause of one byte", &[&none, &odd(TR, 1, &[1])], 5, 0),
        refused("5-then-6", "n 97, then literal 98", &[&large, &record(INIT, &[98]), &end()], 5, 0),
        refused("5-then-7", "n 0, then 129 lemmas", &[&none, &many, &end()], 5, 0),
        refused("5-then-8", "n 0, then bytes after the end", &[&none, &end(), &[0]], 5, 0),
    ]
}

/// A fault of a clause, then a fault of a later record.
fn after_a_bad_clause() -> Vec<Refused> {
    let zero = [head(), record(TR, &[0])].concat();
    let full = [full_of_lemmas(), one_more()].concat();
    let many = one_more().repeat(Problem::LEMMAS + 1);
    let lower = record(INIT, &[1]);
    let short = odd(TR, 1, &[1]);
    vec![
        refused("6-then-2", "literal 0, then no record", &[&zero], 6, 12),
        refused("6-then-3", "literal 0, then a lower kind", &[&zero, &lower, &end()], 6, 12),
        refused("6-then-4", "literal 0, then a clause of one byte", &[&zero, &short], 6, 12),
        refused("6-then-7", "literal 0, then 129 lemmas", &[&zero, &many], 6, 12),
        refused("6-then-8", "literal 0, then bytes after the end", &[&zero, &end(), &[0]], 6, 12),
        refused("7-then-2", "129 lemmas, then no record", &[&full], 7, 776),
        refused("7-then-3", "129 lemmas, then a lower kind", &[&full, &lower], 7, 776),
        refused("7-then-8", "129 lemmas, then bytes after the end", &[&full, &end(), &[0]], 7, 776),
        refused("4-then-3", "a clause of one byte, then a lower kind", &[&head(), &short, &lower], 4, 8),
    ]
}

fn one_more() -> Vec<u8> {
    record(LEMMA, &[1])
}

/// Files of 65,537 bytes, each with a second fault that a reader without the limit would find.
fn over_size() -> Vec<Refused> {
    let size = Problem::FILE_BYTES + 1;
    let padded = |start: Vec<u8>| {
        let mut file = start;
        file.resize(size, 0);
        file
    };
    let mut cut = [head(), record(INIT, &[1; 64]).repeat(size / 132)].concat();
    cut.extend(record(INIT, &[1; 64]));
    cut.truncate(size);
    let faults: [(&'static str, &'static str, Vec<u8>); 7] = [
        ("1-before-2", "too long, and its last record cut", cut),
        ("1-before-3", "too long, and nothing but zeros", vec![]),
        ("1-before-4", "too long, and a clause of one byte", [head(), odd(INIT, 1, &[1])].concat()),
        ("1-before-5", "too long, and n is 0", record(HEAD, &[0, 0])),
        ("1-before-6", "too long, and a literal 0", [head(), record(INIT, &[0])].concat()),
        ("1-before-7", "too long, and 129 lemmas", [full_of_lemmas(), record(LEMMA, &[1])].concat()),
        ("1-before-8", "too long, and bytes after the end record", case("L").file()),
    ];
    let files = faults.into_iter().map(|(name, line, start)| (name, line, padded(start)));
    files.map(|(name, line, file)| Refused { name, line, file, number: 1, place: 0 }).collect()
}

/// Literals at each edge of what a Bad clause may name, mostly after one that passes; and inputs in the other two
/// kinds that speak of the state.
fn around_bad() -> Vec<Refused> {
    let sized = |n, m, kind, clause: &[i16]| [record(HEAD, &[n, m]), record(kind, clause), end()].concat();
    let with_inputs = |clause: &[i16]| sized(3, 2, BAD, clause);
    let without = |clause: &[i16]| sized(2, 0, BAD, clause);
    let faults: [(&'static str, &'static str, Vec<u8>, u64); 10] = [
        ("6-bad-next-first", "Bad with n, then n+1", with_inputs(&[3, 4]), 14),
        ("6-bad-next-last", "Bad with -(2n+1), then -2n", with_inputs(&[-7, -6]), 14),
        ("6-bad-large", "Bad with 2n+m, then -(2n+m+1)", with_inputs(&[8, -9]), 14),
        ("6-bad-zero", "Bad with -(2n+m), then 0", with_inputs(&[-8, 0]), 14),
        ("6-bad-least", "Bad with 2n+1, then -32768", with_inputs(&[7, -32768]), 14),
        ("6-bad-no-inputs-next-first", "m is 0, Bad with n, then n+1", without(&[2, 3]), 14),
        ("6-bad-no-inputs-next-last", "m is 0, Bad with -2n", without(&[-4]), 12),
        ("6-bad-no-inputs-large", "m is 0, Bad with 2n+1", without(&[5]), 12),
        ("6-init-input", "Init with n, then 2n+1", sized(3, 2, INIT, &[3, 7]), 14),
        ("6-lemma-input", "a lemma with -n, then -(2n+m)", sized(3, 2, LEMMA, &[-3, -8]), 14),
    ];
    faults.into_iter().map(|(name, line, file, place)| Refused { name, line, file, number: 6, place }).collect()
}
