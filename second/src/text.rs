//! The listing program's text.

use crate::file::{read, Problem};
use crate::jobs::list;
use crate::mutants::Rules;

pub const BUDGET: u32 = 1_000_000;
pub const ROW_BYTES: usize = 65_536;

/// What the listing program prints for a file.
pub fn listing_text(file: &[u8]) -> String {
    text_within(file, BUDGET, ROW_BYTES)
}

/// The same text for another budget and another length of the space for rows.
pub fn text_within(file: &[u8], budget: u32, space: usize) -> String {
    let mut lent = vec![0; space];
    let report = list(file, budget, &mut lent, Rules::TRUE);
    let word = match report.number {
        0 => "complete",
        10 => "spent",
        11 => "none",
        12 => "room",
        number => return format!("bad {number} {}\n", report.place),
    };
    let k = read(file, Rules::TRUE).as_ref().map_or(0, Problem::k);
    let mut text = format!("{word} {} {}\n", report.rows, report.decisions);
    for row in 0..report.rows as usize {
        text.extend(lent[row * k..(row + 1) * k].iter().map(|&mark| if mark == 1 { '1' } else { '0' }));
        text.push('\n');
    }
    text
}
