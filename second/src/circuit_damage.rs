//! Damaged texts: bytes, words and lines changed, and numbers that a reader could stumble on.

use crate::random::Random;

/// The text with one to three damages.
pub fn damaged_text(random: &mut Random, text: &[u8]) -> Vec<u8> {
    let mut text = text.to_vec();
    for _ in 0..1 + random.below(3) {
        text = damage(random, &text);
    }
    text
}

fn damage(random: &mut Random, text: &[u8]) -> Vec<u8> {
    if text.is_empty() {
        return b"0\n"[random.below(2)..].to_vec();
    }
    let at = random.below(text.len());
    match random.below(12) {
        0 => with_byte(text, at, text[at] ^ 1 << random.below(8)),
        1 => with_byte(text, at, hostile_byte(random)),
        2 => text[..at].to_vec(),
        3 => [&text[..at], &text[at + 1..]].concat(),
        4 | 5 => [&text[..at], &[hostile_byte(random)], &text[at..]].concat(),
        6..=8 => word_damaged(random, text),
        _ => lines_damaged(random, text),
    }
}

fn with_byte(text: &[u8], at: usize, byte: u8) -> Vec<u8> {
    let mut text = text.to_vec();
    text[at] = byte;
    text
}

fn hostile_byte(random: &mut Random) -> u8 {
    match random.below(4) {
        0 => random.number() as u8,
        1 => b'0' + random.below(10) as u8,
        _ => b" \t\r\n\0-+cilo.x"[random.below(13)],
    }
}

/// A line left out, doubled, moved or put in.
fn lines_damaged(random: &mut Random, text: &[u8]) -> Vec<u8> {
    let mut lines: Vec<Vec<u8>> = text.split_inclusive(|&byte| byte == b'\n').map(<[u8]>::to_vec).collect();
    let at = random.below(lines.len());
    let other = random.below(lines.len());
    match random.below(4) {
        0 => {
            lines.remove(at);
        }
        1 => lines.insert(other, lines[at].clone()),
        2 => lines.swap(at, other),
        _ => lines.insert(at, [&hostile_number(random, 4), &b"\n"[..]].concat()),
    }
    lines.concat()
}

/// One number of the text changed: near to what it was, or one that is hard to read.
fn word_damaged(random: &mut Random, text: &[u8]) -> Vec<u8> {
    let starts: Vec<usize> = (0..text.len())
        .filter(|&at| text[at].is_ascii_digit() && (at == 0 || !text[at - 1].is_ascii_digit()))
        .collect();
    if starts.is_empty() {
        return text.to_vec();
    }
    let start = starts[random.below(starts.len())];
    let length = text[start..].iter().take_while(|byte| byte.is_ascii_digit()).count();
    let digits = std::str::from_utf8(&text[start..start + length]).expect("digits");
    let value: usize = digits.parse().unwrap_or(0);
    [&text[..start], &hostile_number(random, value), &text[start + length..]].concat()
}

/// A word in the place of a number.
fn hostile_number(random: &mut Random, value: usize) -> Vec<u8> {
    let near = match random.below(5) {
        0 => value.saturating_sub(1),
        1 => value.saturating_add(1),
        2 => value.saturating_add(2),
        3 => value / 2,
        _ => random.below(14),
    };
    let word = match random.below(16) {
        0 => format!("{value:020}"),
        1 => format!("{value:040}"),
        2 => format!("{}", (1u128 << 64) + value as u128),
        3 => format!("{}", (1u128 << 64) - 1 - (value as u128 & 3)),
        4 => format!("{}{value:020}", 1 + random.below(9)),
        5 => format!("{}{value:039}", 1 + random.below(9)),
        6 => "-0".to_string(),
        7 => format!("-{value}"),
        8 => format!("+{value}"),
        9 => format!(" {value}"),
        10 => format!("{value} 0"),
        11 => format!("{}", (1u64 << 32) + value as u64),
        _ => near.to_string(),
    };
    word.into_bytes()
}
