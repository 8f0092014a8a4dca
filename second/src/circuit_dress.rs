//! Circuit texts that say the same in other words: leading zeros, numbers of forty digits, symbols, comments; and
//! symbol tables with faults.

use crate::circuit_random::{shuffle, Drawn, Row};
use crate::random::Random;

/// How literals are written: with leading zeros here and there, and behind digits that make them large.
pub struct Dress {
    zeros: bool,
    half: String,
    twice: String,
}

impl Dress {
    pub fn plain() -> Dress {
        Dress { zeros: false, half: String::new(), twice: String::new() }
    }

    /// Leading zeros in half of the texts; in so many of a hundred, numbers of up to forty digits.
    pub fn random(random: &mut Random, large: usize) -> Dress {
        let mut dress = Dress { zeros: random.once_in(2), ..Dress::plain() };
        if random.below(100) < large {
            let digits = [1, 13, 14, 15, 34][random.below(5)];
            let half: Vec<usize> = (0..digits).map(|at| random.below(4) + (at == 0) as usize).collect();
            dress.half = half.iter().map(|digit| digit.to_string()).collect();
            dress.twice = half.iter().map(|digit| (2 * digit).to_string()).collect();
        }
        dress
    }

    fn number(&self, random: &mut Random, digits: String) -> String {
        let zeros = if self.zeros && random.once_in(4) { 1 + random.below(3) } else { 0 };
        "0".repeat(zeros) + &digits
    }

    /// The digits of M, before six more; a literal has twice that, so that its range is as before.
    fn most(&self, random: &mut Random, most: usize) -> String {
        let digits = if self.half.is_empty() { most.to_string() } else { format!("{}{most:06}", self.half) };
        self.number(random, digits)
    }

    fn literal(&self, random: &mut Random, literal: usize) -> String {
        let plain = self.twice.is_empty() || literal < 2;
        let digits = if plain { literal.to_string() } else { format!("{}{literal:06}", self.twice) };
        self.number(random, digits)
    }
}

/// The text of a circuit, dressed so.
pub fn dressed(random: &mut Random, circuit: &Drawn, dress: &Dress) -> Vec<u8> {
    let mut text = format!("aag {}", dress.most(random, circuit.most));
    for count in circuit.counts() {
        text += &format!(" {}", dress.number(random, count.to_string()));
    }
    text += "\n";
    for row in circuit.rows() {
        let words: Vec<String> = match row {
            Row::Literals(literals) => literals.iter().map(|&literal| dress.literal(random, literal)).collect(),
            Row::Count(count) => vec![dress.number(random, count.to_string())],
        };
        text += &(words.join(" ") + "\n");
    }
    text.into_bytes()
}

/// The lemma text, with leading zeros here and there.
pub fn dressed_lemmas(random: &mut Random, circuit: &Drawn, dress: &Dress) -> Vec<u8> {
    let mut text = String::new();
    for lemma in &circuit.lemmas {
        for &latch in lemma {
            let sign = if latch < 0 { "-" } else { "" };
            text += &format!("{sign}{} ", dress.number(random, latch.unsigned_abs().to_string()));
        }
        text += &(dress.number(random, "0".to_string()) + "\n");
    }
    text.into_bytes()
}

/// A table of symbols for some positions in any order, each once; in so many of a hundred tables with lines at fault.
pub fn symbols(random: &mut Random, circuit: &Drawn, faults: usize) -> Vec<u8> {
    let counts = letter_counts(circuit);
    let mut lines: Vec<Vec<u8>> = Vec::new();
    for &(letter, count) in &counts {
        for position in 0..count {
            if !random.once_in(3) {
                lines.push(symbol(random, letter, position));
            }
        }
    }
    if random.below(100) < faults {
        for _ in 0..1 + random.below(2) {
            let (letter, count) = counts[random.below(counts.len())];
            let position = random.below(count + 2);
            let other = b"bcjfIx"[random.below(6)];
            let line = match random.below(8) {
                0 => b"\n".to_vec(),
                1 => [&[letter][..], position.to_string().as_bytes(), b"\n"].concat(),
                2 => [&[letter][..], position.to_string().as_bytes(), b" \n"].concat(),
                3 => [&[letter][..], b" ", position.to_string().as_bytes(), b" x\n"].concat(),
                4 => symbol(random, other, position),
                _ => symbol(random, letter, position),
            };
            lines.push(line);
        }
    }
    shuffle(random, &mut lines);
    lines.concat()
}

/// Each letter that a symbol of this circuit may have, and what its position is below.
fn letter_counts(circuit: &Drawn) -> Vec<(u8, usize)> {
    let mut counts = vec![(b'i', circuit.inputs.len()), (b'l', circuit.latches.len()), (b'o', circuit.outputs.len())];
    if circuit.numbers > 5 {
        counts.extend([(b'b', circuit.bad.len()), (b'c', circuit.constraints.len())]);
        counts.extend([(b'j', circuit.justice.len()), (b'f', circuit.fairness.len())]);
    }
    counts
}

fn symbol(random: &mut Random, letter: u8, position: usize) -> Vec<u8> {
    let zeros = if random.once_in(5) { "00" } else { "" };
    let mut line = vec![letter];
    line.extend(format!("{zeros}{position} ").bytes());
    line.extend((0..1 + random.below(6)).map(|_| any_byte(random)).filter(|&byte| byte != b'\n'));
    line.extend(b"x\n");
    line
}

fn any_byte(random: &mut Random) -> u8 {
    match random.below(3) {
        0 => random.number() as u8,
        1 => b" \t\r\0-ilocaag0123456789"[random.below(22)],
        _ => b'a' + random.below(26) as u8,
    }
}

/// A comment of any bytes; sometimes its line says more, or has no newline.
pub fn comment(random: &mut Random) -> Vec<u8> {
    let start: &[u8] = match random.below(12) {
        0 => b"c",
        1 => b"c \n",
        2 => b"cc\n",
        _ => b"c\n",
    };
    let bytes = random.below(30);
    let rest: Vec<u8> = (0..bytes).map(|_| if random.once_in(6) { b'\n' } else { any_byte(random) }).collect();
    [start, &rest].concat()
}
