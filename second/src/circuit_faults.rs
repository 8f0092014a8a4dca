//! Circuit texts of edition 2007 with a line that is at fault by itself or beside earlier lines. The sign @ stands
//! before that line.

use crate::circuit_sample::{sample, Sample};

type Table = &'static [(&'static str, &'static str, &'static str)];

const HEADERS: Table = &[
    ("header-none", "no byte at all", "@"),
    ("header-name", "another name", "@aig 3 1 1 1 1\n2\n4 6\n4\n6 2 5\n"),
    ("header-capital", "the name in capitals", "@AAG 3 1 1 1 1\n2\n4 6\n4\n6 2 5\n"),
    ("header-no-space", "no space after the name", "@aag3 1 1 1 1\n2\n4 6\n4\n6 2 5\n"),
    ("header-name-only", "the name and no number", "@aag\n2\n4 6\n4\n6 2 5\n"),
    ("header-four", "four numbers", "@aag 3 1 1 1\n2\n4 6\n4\n"),
    ("header-ten", "ten numbers", "@aag 3 1 1 1 1 0 0 0 0 0\n2\n4 6\n4\n6 2 5\n"),
    ("header-eleven", "eleven numbers", "@aag 3 1 1 1 1 0 0 0 0 0 0\n2\n4 6\n4\n6 2 5\n"),
    ("header-minus", "a minus", "@aag 3 1 1 1 -1\n2\n4 6\n4\n6 2 5\n"),
    ("header-plus", "a plus", "@aag 3 +1 1 1 1\n2\n4 6\n4\n6 2 5\n"),
    ("header-two-spaces", "two spaces", "@aag 3  1 1 1 1\n2\n4 6\n4\n6 2 5\n"),
    ("header-two-spaces-first", "two spaces after the name", "@aag  3 1 1 1 1\n2\n4 6\n4\n6 2 5\n"),
    ("header-space-first", "a space before the name", "@ aag 3 1 1 1 1\n2\n4 6\n4\n6 2 5\n"),
    ("header-space-last", "a space at the end", "@aag 3 1 1 1 1 \n2\n4 6\n4\n6 2 5\n"),
    ("header-tab", "a tab for a space", "@aag 3\t1 1 1 1\n2\n4 6\n4\n6 2 5\n"),
    ("header-return", "a carriage return", "@aag 3 1 1 1 1\r\n2\n4 6\n4\n6 2 5\n"),
    ("header-zero-byte", "a zero byte", "@aag 3 1 1 1 1\0\n2\n4 6\n4\n6 2 5\n"),
    ("header-letter", "a letter in a number", "@aag 3 1 1 1 0x1\n2\n4 6\n4\n6 2 5\n"),
    ("header-no-newline", "no newline", "@aag 0 0 0 0 0"),
    ("header-empty-line", "an empty first line", "@\naag 3 1 1 1 1\n2\n4 6\n4\n6 2 5\n"),
    ("header-sum", "I + L + A is M + 1", "@aag 2 1 1 1 1\n2\n4 2\n4\n2 4 4\n"),
    (
        "header-sum-large",
        "I + L + A is M + 1, of forty digits",
        "@aag 9999999999999999999999999999999999999999 9999999999999999999999999999999999999999 1 1 0\n2\n",
    ),
    ("header-sum-64-bits", "I + A is 2^64 and M is 1", "@aag 1 18446744073709551615 0 1 1\n2\n4\n"),
    ("header-before-lines", "the header, and a line after it", "@aag 3 1 1 1\n3\n"),
];

const DEFINITIONS: Table = &[
    ("input-odd", "an input's literal is odd", "aag 3 1 1 1 1\n@3\n4 6\n4\n6 2 5\n"),
    ("input-zero", "an input's literal is 0", "aag 3 1 1 1 1\n@0\n4 6\n4\n6 4 5\n"),
    ("input-one", "an input's literal is 1", "aag 3 1 1 1 1\n@1\n4 6\n4\n6 4 5\n"),
    ("input-over", "an input's literal is 2M + 2", "aag 3 1 1 1 1\n@8\n4 6\n4\n6 4 5\n"),
    ("input-over-large", "an input's literal is 2M + 2^64", "aag 3 1 1 1 1\n@18446744073709551622\n4 2\n4\n2 4 5\n"),
    ("input-two-numbers", "an input line of two numbers", "aag 3 1 1 1 1\n@2 2\n4 6\n4\n6 2 5\n"),
    ("input-minus", "a minus", "aag 3 1 1 1 1\n@-2\n4 6\n4\n6 2 5\n"),
    ("input-minus-zero", "-0", "aag 3 1 1 1 1\n@-0\n4 6\n4\n6 4 5\n"),
    ("input-plus", "a plus", "aag 3 1 1 1 1\n@+2\n4 6\n4\n6 2 5\n"),
    ("input-return", "a carriage return", "aag 3 1 1 1 1\n@2\r\n4 6\n4\n6 2 5\n"),
    ("input-empty", "an empty line", "aag 3 1 1 1 1\n@\n4 6\n4\n6 2 5\n"),
    ("input-twice", "two inputs of one variable", "aag 3 2 1 1 0\n2\n@2\n4 2\n4\n"),
    ("input-twice-by-zeros", "one variable, once with a leading zero", "aag 3 2 1 1 0\n2\n@02\n4 2\n4\n"),
    ("latch-odd", "a latch's literal is odd", "aag 3 1 1 1 1\n2\n@5 6\n4\n6 2 2\n"),
    ("latch-zero", "a latch's literal is 0", "aag 3 1 1 1 1\n2\n@0 6\n2\n6 2 2\n"),
    ("latch-over", "a latch's literal is 2M + 2", "aag 3 1 1 1 1\n2\n@8 6\n2\n6 2 2\n"),
    ("latch-next-over", "a next literal is 2M + 2", "aag 3 1 1 1 1\n2\n@4 8\n4\n6 2 5\n"),
    ("latch-next-over-then-form", "2M + 2, and a later line of no number", "aag 3 1 1 1 1\n2\n@4 8\n4\nx\n"),
    ("latch-one-number", "a latch line of one number", "aag 3 1 1 1 1\n2\n@4\n4\n6 2 5\n"),
    ("latch-start", "a latch line of three numbers", "aag 3 1 1 1 1\n2\n@4 6 0\n4\n6 2 5\n"),
    ("latch-start-one", "a start of 1 under a header of five", "aag 3 1 1 1 1\n2\n@4 6 1\n4\n6 2 5\n"),
    ("latch-start-itself", "a start at itself under a header of five", "aag 3 1 1 1 1\n2\n@4 6 4\n4\n6 2 5\n"),
    ("latch-two-spaces", "two spaces", "aag 3 1 1 1 1\n2\n@4  6\n4\n6 2 5\n"),
    ("latch-space-last", "a space at the end", "aag 3 1 1 1 1\n2\n@4 6 \n4\n6 2 5\n"),
    ("latch-space-first", "a space at the start", "aag 3 1 1 1 1\n2\n@ 4 6\n4\n6 2 5\n"),
    ("latch-tab", "a tab for a space", "aag 3 1 1 1 1\n2\n@4\t6\n4\n6 2 5\n"),
    ("latch-input-again", "a latch of an input's variable", "aag 3 1 1 1 1\n2\n@2 6\n2\n6 2 2\n"),
    ("latch-twice", "two latches of one variable", "aag 3 0 2 1 0\n4 4\n@4 4\n4\n"),
    ("output-over", "an output's literal is 2M + 2", "aag 3 1 1 1 1\n2\n4 6\n@8\n6 2 5\n"),
    ("output-two-numbers", "an output line of two numbers", "aag 3 1 1 1 1\n2\n4 6\n@4 4\n6 2 5\n"),
    ("output-empty", "an empty line", "aag 3 1 1 1 1\n2\n4 6\n@\n6 2 5\n"),
    ("gate-odd", "a gate's literal is odd", "aag 3 1 1 1 1\n2\n4 6\n4\n@7 2 5\n"),
    ("gate-zero", "a gate's literal is 0", "aag 3 1 1 1 1\n2\n4 2\n4\n@0 2 5\n"),
    ("gate-over", "a gate's literal is 2M + 2", "aag 3 1 1 1 1\n2\n4 2\n4\n@8 2 5\n"),
    ("gate-first-over", "a gate's first input is 2M + 2", "aag 3 1 1 1 1\n2\n4 6\n4\n@6 8 5\n"),
    ("gate-second-over", "a gate's second input is 2M + 2", "aag 3 1 1 1 1\n2\n4 6\n4\n@6 2 8\n"),
    ("gate-two-numbers", "a gate line of two numbers", "aag 3 1 1 1 1\n2\n4 6\n4\n@6 2\n"),
    ("gate-four-numbers", "a gate line of four numbers", "aag 3 1 1 1 1\n2\n4 6\n4\n@6 2 5 5\n"),
    ("gate-input-again", "a gate of an input's variable", "aag 3 1 1 1 1\n2\n4 2\n4\n@2 4 5\n"),
    ("gate-latch-again", "a gate of a latch's variable", "aag 3 1 1 1 1\n2\n4 2\n4\n@4 2 2\n"),
    ("gate-twice", "two gates of one variable", "aag 4 1 1 1 2\n2\n4 6\n4\n6 2 5\n@6 2 4\n"),
    ("two-faults", "two lines at fault: the first counts", "aag 3 1 1 1 1\n2\n@4 9\n4 4\n7 2 5\n"),
];

const MISSING: Table = &[
    ("missing-input", "nothing after the header", "aag 3 1 1 1 1\n@"),
    ("missing-latch", "no latch line", "aag 3 1 1 1 1\n2\n@"),
    ("missing-output", "no output line", "aag 3 1 1 1 1\n2\n4 6\n@"),
    ("missing-gate", "no gate line", "aag 3 1 1 1 1\n2\n4 6\n4\n@"),
    (
        "missing-many",
        "a header of 10^39 inputs",
        "aag 9000000000000000000000000000000000000000 1000000000000000000000000000000000000000 1 1 1\n2\n4\n@",
    ),
    ("missing-2-64", "a header of 2^64 inputs", "aag 18446744073709551617 18446744073709551616 1 1 0\n@"),
    ("newline-input", "an input line without its newline", "aag 3 1 1 1 1\n@2"),
    ("newline-gate", "the last gate line without its newline", "aag 3 1 1 1 1\n2\n4 6\n4\n@6 2 5"),
    ("newline-symbol", "the last symbol line without its newline", "aag 3 1 1 1 1\n2\n4 6\n4\n6 2 5\n@i0 x"),
    ("newline-comment", "the line c without its newline", "aag 3 1 1 1 1\n2\n4 6\n4\n6 2 5\n@c"),
];

const SYMBOLS: Table = &[
    ("symbol-empty", "an empty line after the gates", "aag 3 1 1 1 1\n2\n4 6\n4\n6 2 5\n@\n"),
    ("symbol-fourth", "one gate line more", "aag 3 1 1 1 1\n2\n4 6\n4\n6 2 5\n@6 2 5\n"),
    ("symbol-letter", "another letter", "aag 3 1 1 1 1\n2\n4 6\n4\n6 2 5\n@b0 x\n"),
    ("symbol-capital", "a capital letter", "aag 3 1 1 1 1\n2\n4 6\n4\n6 2 5\n@I0 x\n"),
    ("symbol-no-position", "no position", "aag 3 1 1 1 1\n2\n4 6\n4\n6 2 5\n@i x\n"),
    ("symbol-space", "a space before the position", "aag 3 1 1 1 1\n2\n4 6\n4\n6 2 5\n@i 0 x\n"),
    ("symbol-minus", "position -0", "aag 3 1 1 1 1\n2\n4 6\n4\n6 2 5\n@i-0 x\n"),
    ("symbol-tab", "a tab after the position", "aag 3 1 1 1 1\n2\n4 6\n4\n6 2 5\n@i0\tx\n"),
    ("symbol-input-range", "position 1 of one input", "aag 3 1 1 1 1\n2\n4 6\n4\n6 2 5\n@i1 x\n"),
    ("symbol-latch-range", "position 1 of one latch", "aag 3 1 1 1 1\n2\n4 6\n4\n6 2 5\ni0 x\n@l1 x\n"),
    ("symbol-output-range", "position 1 of one output", "aag 3 1 1 1 1\n2\n4 6\n4\n6 2 5\n@o1 x\n"),
    ("symbol-large", "position 2^64", "aag 3 1 1 1 1\n2\n4 6\n4\n6 2 5\n@i18446744073709551616 x\n"),
    ("symbol-no-name", "no space and no name", "aag 3 1 1 1 1\n2\n4 6\n4\n6 2 5\n@i0\n"),
    ("symbol-empty-name", "a space and no name", "aag 3 1 1 1 1\n2\n4 6\n4\n6 2 5\n@i0 \n"),
    ("symbol-twice", "a position named twice", "aag 3 1 1 1 1\n2\n4 6\n4\n6 2 5\nl0 x\ni0 x\n@l0 y\n"),
    ("symbol-twice-by-zeros", "once with a leading zero", "aag 3 1 1 1 1\n2\n4 6\n4\n6 2 5\ni0 x\n@i00 y\n"),
    ("comment-more", "a line that starts with c", "aag 3 1 1 1 1\n2\n4 6\n4\n6 2 5\n@c x\n"),
    ("comment-space", "a space after c", "aag 3 1 1 1 1\n2\n4 6\n4\n6 2 5\n@c \n"),
    ("comment-return", "a carriage return after c", "aag 3 1 1 1 1\n2\n4 6\n4\n6 2 5\n@c\r\n"),
    ("comment-early", "the line c before the gate", "aag 3 1 1 1 1\n2\n4 6\n4\n@c\n6 2 5\n"),
    ("symbol-constraint", "the letter c and a position", "aag 3 1 1 1 1\n2\n4 6\n4\n6 2 5\n@c0 x\n"),
];

/// All of them, with no lemmas.
pub fn line_faults() -> Vec<Sample> {
    let tables = [HEADERS, DEFINITIONS, MISSING, SYMBOLS];
    let rows = tables.into_iter().flatten();
    rows.map(|(name, line, circuit)| sample(name, line, circuit.as_bytes(), b"", 0)).collect()
}
