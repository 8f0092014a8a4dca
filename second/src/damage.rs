//! Damaged files: a good one with a few bytes or records changed.

use crate::file::BAD;
use crate::random::Random;
use crate::write::{record, split};

/// The file with one to three damages.
pub fn damaged(random: &mut Random, file: &[u8]) -> Vec<u8> {
    let mut file = file.to_vec();
    for _ in 0..1 + random.below(3) {
        file = damage(random, &file);
    }
    file
}

fn damage(random: &mut Random, file: &[u8]) -> Vec<u8> {
    if file.is_empty() {
        return vec![random.number() as u8];
    }
    let at = random.below(file.len());
    match random.below(12) {
        0 => with_byte(file, at, file[at] ^ 1 << random.below(8)),
        1 => with_byte(file, at, random.number() as u8),
        2 => file[..at].to_vec(),
        3 => [file, &random.number().to_le_bytes()[..1 + random.below(8)]].concat(),
        4 => [&file[..at], &file[at + 1..]].concat(),
        5 => [&file[..at], &[random.below(8) as u8], &file[at..]].concat(),
        6 | 7 => bad_damaged(random, file),
        _ => records_damaged(random, file),
    }
}

fn with_byte(file: &[u8], at: usize, byte: u8) -> Vec<u8> {
    let mut file = file.to_vec();
    file[at] = byte;
    file
}

/// Damage to whole records: one left out, doubled, moved, put in, or with another literal.
fn records_damaged(random: &mut Random, file: &[u8]) -> Vec<u8> {
    let mut records = split(file);
    let at = random.below(records.len());
    match random.below(5) {
        0 => {
            records.remove(at);
        }
        1 => records.insert(at, records[at].clone()),
        2 => {
            let other = random.below(records.len());
            records.swap(at, other);
        }
        3 => {
            let body: Vec<i16> = (0..random.below(3)).map(|_| literal(random)).collect();
            records.insert(at, record(random.below(8), &body));
        }
        _ => {
            let changed = literal(random).to_le_bytes();
            let record = &mut records[at];
            if record.len() >= 6 {
                let place = 4 + 2 * random.below((record.len() - 4) / 2);
                record[place..place + 2].copy_from_slice(&changed);
            }
        }
    }
    records.concat()
}

fn literal(random: &mut Random) -> i16 {
    match random.below(4) {
        0 => [0, i16::MIN, i16::MAX, 97, 321, -513][random.below(6)],
        _ => random.below(24) as i16 - 12,
    }
}

/// Damage to Bad: a literal at an edge of what its clauses may name, put into one of them or into a new one.
fn bad_damaged(random: &mut Random, file: &[u8]) -> Vec<u8> {
    let mut records = split(file);
    let edge = edge(random, &records[0]);
    let bad: Vec<usize> = (0..records.len()).filter(|&at| kind(&records[at]) == BAD).collect();
    if bad.is_empty() {
        let at = records.iter().position(|record| kind(record) > BAD).unwrap_or(records.len());
        records.insert(at, record(BAD, &[edge]));
        return records.concat();
    }
    let at = bad[random.below(bad.len())];
    let mut body: Vec<i16> = records[at][4..].chunks_exact(2).map(|pair| two_bytes(pair) as i16).collect();
    let place = random.below(body.len() + 1);
    body.insert(place, edge);
    records[at] = record(BAD, &body);
    records.concat()
}

/// The kind of a record, or 0 where it is cut.
fn kind(record: &[u8]) -> usize {
    record.get(2..4).map_or(0, |pair| two_bytes(pair) as usize)
}

/// 0, or a literal of the last state variable, the first or last next value, the first or last input, or one more,
/// by the n and m of the first record.
fn edge(random: &mut Random, head: &[u8]) -> i16 {
    let size = |at: usize| head.get(at..at + 2).map_or(0, two_bytes) as usize;
    let (n, m) = (size(4), size(6));
    let edges = [0, n, n + 1, 2 * n, 2 * n + 1, 2 * n + m, 2 * n + m + 1];
    let literal = edges[random.below(edges.len())] as i16;
    if random.once_in(2) {
        literal
    } else {
        literal.wrapping_neg()
    }
}

fn two_bytes(pair: &[u8]) -> u16 {
    u16::from_le_bytes([pair[0], pair[1]])
}
