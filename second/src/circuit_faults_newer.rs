//! Circuit texts of edition 1.9 with a line that is at fault by itself, beside earlier lines, or for what is known only
//! when all lines are. The sign @ stands before that line.

use crate::circuit_sample::{sample, Sample};

type Table = &'static [(&'static str, &'static str, &'static str)];

const HEADERS: Table = &[
    ("newer-header-sum", "I + L + A is M + 1", "@aag 2 1 1 0 1 1 1\n2\n4 2\n4\n3\n2 4 4\n"),
    ("newer-header-letter", "a letter for the sixth number", "@aag 3 1 1 1 1 b\n2\n4 6\n4\n6 2 5\n"),
    ("newer-header-minus", "-0 for the sixth number", "@aag 3 1 1 1 1 -0\n2\n4 6\n4\n6 2 5\n"),
    ("newer-header-two-spaces", "two spaces before the sixth number", "@aag 3 1 1 1 1  0\n2\n4 6\n4\n6 2 5\n"),
    ("newer-header-space-last", "a space after the ninth number", "@aag 3 1 1 1 1 0 0 0 0 \n2\n4 6\n4\n6 2 5\n"),
];

const LATCHES: Table = &[
    ("newer-start-input", "a latch that starts at an input", "aag 3 1 1 0 1 1 1\n2\n@4 6 2\n4\n3\n6 2 5\n"),
    ("newer-start-negated", "at its own negation", "aag 3 1 1 0 1 1 1\n2\n@4 6 5\n4\n3\n6 2 5\n"),
    ("newer-start-next", "at its next literal", "aag 3 1 1 0 1 1 1\n2\n@4 6 6\n4\n3\n6 2 5\n"),
    ("newer-start-minus", "at -0", "aag 3 1 1 0 1 1 1\n2\n@4 6 -0\n4\n3\n6 2 5\n"),
    ("newer-start-plus", "at +1", "aag 3 1 1 0 1 1 1\n2\n@4 6 +1\n4\n3\n6 2 5\n"),
    ("newer-start-letter", "at a letter", "aag 3 1 1 0 1 1 1\n2\n@4 6 x\n4\n3\n6 2 5\n"),
    ("newer-start-large", "at 2^64", "aag 3 1 1 0 1 1 1\n2\n@4 6 18446744073709551616\n4\n3\n6 2 5\n"),
    ("newer-start-large-own", "at 2^64 and itself", "aag 3 1 1 0 1 1 1\n2\n@4 6 18446744073709551620\n4\n3\n6 2 5\n"),
    ("newer-start-four-numbers", "a latch line of four numbers", "aag 3 1 1 0 1 1 1\n2\n@4 6 4 4\n4\n3\n6 2 5\n"),
    ("newer-start-two-spaces", "two spaces before the start", "aag 3 1 1 0 1 1 1\n2\n@4 6  4\n4\n3\n6 2 5\n"),
    ("newer-start-space-last", "a space after the start", "aag 3 1 1 0 1 1 1\n2\n@4 6 4 \n4\n3\n6 2 5\n"),
    ("newer-latch-one-number", "a latch line of one number", "aag 3 1 1 0 1 1 1\n2\n@4\n4\n3\n6 2 5\n"),
    ("newer-latch-odd", "an odd literal that starts at itself", "aag 3 1 1 0 1 1 1\n2\n@5 6 5\n4\n3\n6 2 2\n"),
    ("newer-latch-next-over", "a next literal is 2M + 2", "aag 3 1 1 0 1 1 1\n2\n@4 8 0\n4\n3\n6 2 5\n"),
];

const SECTIONS: Table = &[
    ("newer-bad-over", "a bad literal is 2M + 2", "aag 3 1 1 0 1 1 1\n2\n4 6 4\n@8\n3\n6 2 5\n"),
    ("newer-bad-two-numbers", "a bad line of two numbers", "aag 3 1 1 0 1 1 1\n2\n4 6 4\n@4 4\n3\n6 2 5\n"),
    ("newer-bad-empty", "an empty bad line", "aag 3 1 1 0 1 1 1\n2\n4 6 4\n@\n3\n6 2 5\n"),
    ("newer-bad-missing", "nothing after the latches", "aag 3 1 1 0 1 1 1\n2\n4 6 4\n@"),
    ("newer-constraint-over", "a constraint is 2M + 2", "aag 3 1 1 0 1 1 1\n2\n4 6 4\n4\n@8\n6 2 5\n"),
    ("newer-constraint-two-numbers", "a constraint line of two", "aag 3 1 1 0 1 1 1\n2\n4 6 4\n4\n@3 3\n6 2 5\n"),
    ("newer-constraint-minus", "a constraint of -0", "aag 3 1 1 0 1 1 1\n2\n4 6 4\n4\n@-0\n6 2 5\n"),
    ("newer-constraint-missing", "a gate in its place", "aag 3 1 1 0 1 1 1\n2\n4 6 4\n4\n@6 2 5\n"),
    ("newer-constraint-late", "a constraint after the gates", "aag 3 1 1 0 1 1 1\n2\n4 6 4\n4\n@6 2 5\n3\n"),
    (
        "newer-constraints-missing",
        "10^39 constraints",
        "aag 1 0 1 0 0 1 1000000000000000000000000000000000000000\n2 2\n2\n3\n@",
    ),
    ("newer-count-two", "a justice count of two numbers", "aag 3 1 1 0 1 1 0 1 0\n2\n4 6\n4\n@1 1\n4\n6 2 5\n"),
    ("newer-count-minus", "a justice count of -0", "aag 3 1 1 0 1 1 0 1 0\n2\n4 6\n4\n@-0\n6 2 5\n"),
    ("newer-count-missing", "no justice count", "aag 3 1 1 0 1 1 0 1 0\n2\n4 6\n4\n@"),
    ("newer-justice-over", "a justice literal is 2M + 2", "aag 3 1 1 0 1 1 0 1 0\n2\n4 6\n4\n1\n@8\n6 2 5\n"),
    ("newer-justice-two", "a justice literal's line of two", "aag 3 1 1 0 1 1 0 1 0\n2\n4 6\n4\n1\n@4 4\n6 2 5\n"),
    ("newer-justice-missing", "two, of which one is there", "aag 3 1 1 0 1 1 0 1 0\n2\n4 6\n4\n2\n4\n@6 2 5\n"),
    ("newer-justice-sum", "2 and 1, two are there", "aag 3 1 1 0 1 1 0 2 0\n2\n4 6\n4\n2\n1\n4\n4\n@6 2 5\n"),
    ("newer-justice-mixed", "each count with its literal", "aag 3 1 1 0 1 1 0 2 0\n2\n4 6\n4\n1\n4\n1\n4\n@6 2 5\n"),
    ("newer-justice-more", "one literal too many", "aag 3 1 1 0 1 1 0 1 0\n2\n4 6\n4\n1\n4\n@4\n6 2 5\n"),
    (
        "newer-justice-many",
        "10^39 justice literals, of which two are there",
        "aag 3 1 1 0 1 1 0 1 0\n2\n4 6\n4\n1000000000000000000000000000000000000000\n4\n3\n@",
    ),
    (
        "newer-justice-2-64",
        "2^64 justice literals in two sets",
        "aag 3 1 1 0 1 1 0 2 0\n2\n4 6\n4\n18446744073709551615\n1\n@6 2 5\n",
    ),
    ("newer-fairness-over", "a fairness literal is 2M + 2", "aag 3 1 1 0 1 1 0 0 1\n2\n4 6\n4\n@8\n6 2 5\n"),
    ("newer-fairness-two", "a fairness line of two numbers", "aag 3 1 1 0 1 1 0 0 1\n2\n4 6\n4\n@4 4\n6 2 5\n"),
    ("newer-fairness-missing", "no fairness line", "aag 3 1 1 0 1 1 0 0 1\n2\n4 6\n4\n@6 2 5\n"),
    ("newer-fairness-order", "fairness in the place of justice", "aag 3 1 1 0 1 1 0 1 1\n2\n4 6\n4\n5\n1\n4\n@6 2 5\n"),
    ("newer-gate-missing", "nothing after the constraint", "aag 3 1 1 0 1 1 1\n2\n4 6 4\n4\n3\n@"),
];

const SYMBOLS: Table = &[
    ("newer-symbol-bad-range", "position 1 of one", "aag 3 1 1 0 1 1 1\n2\n4 6 4\n4\n3\n6 2 5\n@b1 x\n"),
    ("newer-symbol-constraint-range", "1 of one", "aag 3 1 1 0 1 1 1\n2\n4 6 4\n4\n3\n6 2 5\nb0 x\n@c1 x\n"),
    ("newer-symbol-justice-range", "position 0 of none", "aag 3 1 1 0 1 1 1\n2\n4 6 4\n4\n3\n6 2 5\n@j0 x\n"),
    ("newer-symbol-fairness-range", "position 0 of none", "aag 3 1 1 0 1 1 1\n2\n4 6 4\n4\n3\n6 2 5\n@f0 x\n"),
    ("newer-symbol-output-range", "position 0 of none", "aag 3 1 1 0 1 1 1\n2\n4 6 4\n4\n3\n6 2 5\n@o0 x\n"),
    ("newer-symbol-bad-of-output", "an output is none", "aag 3 1 1 1 1 0\n2\n4 6 4\n4\n6 2 5\n@b0 x\n"),
    (
        "newer-symbol-justice-literal",
        "position 1 of one justice set of two literals",
        "aag 3 1 1 0 1 1 0 1\n2\n4 6 4\n4\n2\n4\n3\n6 2 5\nj0 x\n@j1 x\n",
    ),
    ("newer-symbol-no-name", "c0 and no name", "aag 3 1 1 0 1 1 1\n2\n4 6 4\n4\n3\n6 2 5\n@c0\n"),
    ("newer-symbol-empty-name", "a space and no name", "aag 3 1 1 0 1 1 1\n2\n4 6 4\n4\n3\n6 2 5\n@c0 \n"),
    ("newer-symbol-no-position", "c and a name", "aag 3 1 1 0 1 1 1\n2\n4 6 4\n4\n3\n6 2 5\n@c x\n"),
    ("newer-symbol-space", "c and a space", "aag 3 1 1 0 1 1 1\n2\n4 6 4\n4\n3\n6 2 5\n@c \n"),
    ("newer-symbol-twice", "c0 named twice", "aag 3 1 1 0 1 1 1\n2\n4 6 4\n4\n3\n6 2 5\nc0 x\nb0 x\n@c00 y\n"),
    ("newer-symbol-capital", "a capital letter", "aag 3 1 1 0 1 1 1\n2\n4 6 4\n4\n3\n6 2 5\n@C0 x\n"),
    ("newer-newline-comment", "c without a newline", "aag 3 1 1 0 1 1 1\n2\n4 6 4\n4\n3\n6 2 5\nc0 x\n@c"),
];

const GATES: Table = &[
    ("newer-undefined-bad", "a bad literal that no line defines", "aag 4 1 1 0 1 1 1\n2\n4 6 4\n@8\n3\n6 2 5\n"),
    ("newer-undefined-constraint", "a constraint", "aag 4 1 1 0 1 1 1\n2\n4 6 4\n4\n@9\n6 2 5\n"),
    ("newer-undefined-justice", "a justice literal", "aag 4 1 1 0 1 1 0 1\n2\n4 6 4\n4\n1\n@8\n6 2 5\n"),
    ("newer-undefined-fairness", "a fairness literal", "aag 4 1 1 0 1 1 0 0 1\n2\n4 6 4\n4\n@8\n6 2 5\n"),
    ("newer-undefined-output", "an output, and a bad literal", "aag 4 1 1 1 1 1 1\n2\n4 6 4\n@8\n9\n3\n6 2 5\n"),
    ("newer-undefined-first", "a bad literal, and a constraint", "aag 4 1 1 0 1 1 1\n2\n4 6 4\n@8\n9\n6 2 5\n"),
    ("newer-undefined-before-gate", "a constraint, and a gate", "aag 4 1 1 0 1 1 1\n2\n4 6 4\n4\n@8\n6 2 9\n"),
    (
        "newer-undefined-before-circle",
        "a fairness literal, and a circle",
        "aag 4 1 1 0 1 1 0 0 1\n2\n4 6 4\n4\n@8\n6 2 6\n",
    ),
    ("newer-circle-of-bad", "a bad literal of a circle", "aag 3 1 1 0 1 1 1\n2\n4 2 4\n6\n3\n@6 2 6\n"),
    ("newer-circle-of-constraint", "a constraint of a circle", "aag 3 1 1 0 1 1 1\n2\n4 2 4\n4\n7\n@6 2 6\n"),
    ("newer-circle-of-justice", "a justice literal of one", "aag 3 1 1 0 1 1 0 1\n2\n4 2 4\n4\n1\n7\n@6 2 6\n"),
    (
        "newer-symbol-before-undefined",
        "an undefined constraint, and a symbol without a name",
        "aag 4 1 1 0 1 1 1\n2\n4 6 4\n4\n8\n6 2 5\n@c0\n",
    ),
];

/// All of them, with no lemmas.
pub fn newer_faults() -> Vec<Sample> {
    let tables = [HEADERS, LATCHES, SECTIONS, SYMBOLS, GATES];
    let rows = tables.into_iter().flatten();
    rows.map(|(name, line, circuit)| sample(name, line, circuit.as_bytes(), b"", 0)).collect()
}
