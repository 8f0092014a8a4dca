//! Writes a problem as a file, whatever it holds (the reader may refuse the result), and splits a file
//! into its records.

use crate::file::{Problem, BAD, END, HEAD, INIT, LEMMA, TR};

/// One record: the length of the body, the kind, the body.
pub fn record(kind: usize, body: &[i16]) -> Vec<u8> {
    let mut bytes = ((2 * body.len()) as u16).to_le_bytes().to_vec();
    bytes.extend((kind as u16).to_le_bytes());
    bytes.extend(body.iter().flat_map(|number| number.to_le_bytes()));
    bytes
}

impl Problem {
    pub fn to_bytes(&self) -> Vec<u8> {
        let mut bytes = record(HEAD, &[self.n as i16, self.m as i16]);
        let lists = [(INIT, &self.init), (TR, &self.tr), (BAD, &self.bad), (LEMMA, &self.lemmas)];
        for (kind, list) in lists {
            for clause in list {
                bytes.extend(record(kind, clause));
            }
        }
        bytes.extend(record(END, &[]));
        bytes
    }
}

/// The records as their lengths say, the last one perhaps cut.
pub fn split(file: &[u8]) -> Vec<Vec<u8>> {
    let mut records = Vec::new();
    let mut rest = file;
    while !rest.is_empty() {
        let length = if rest.len() < 4 { 0 } else { u16::from_le_bytes([rest[0], rest[1]]) as usize };
        let (record, others) = rest.split_at(rest.len().min(4 + length));
        records.push(record.to_vec());
        rest = others;
    }
    records
}
