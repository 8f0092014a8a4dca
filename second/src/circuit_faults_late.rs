//! Pairs of texts refused by 13 for what is known only when all lines are, for a lemma line, or beside a limit, and by
//! 14. The sign @ stands before the line at fault.

use crate::circuit_sample::{sample, Sample, PLAIN};
use crate::file::Problem;

type Table = &'static [(&'static str, &'static str, &'static str)];

const GATES: Table = &[
    ("undefined-next", "a next literal that no line defines", "aag 4 1 1 1 1\n2\n@4 8\n4\n6 2 5\n"),
    ("undefined-next-negated", "the last literal of all, 2M + 1", "aag 4 1 1 1 1\n2\n@4 9\n4\n6 2 5\n"),
    ("undefined-output", "an output that no line defines", "aag 4 1 1 1 1\n2\n4 6\n@9\n6 2 5\n"),
    ("undefined-first", "a gate's first input", "aag 4 1 1 1 1\n2\n4 6\n4\n@6 8 5\n"),
    ("undefined-second", "a gate's second input", "aag 4 1 1 1 1\n2\n4 6\n4\n@6 2 9\n"),
    ("undefined-two", "a gate's input, and an output before it", "aag 4 1 1 1 1\n2\n4 6\n@8\n6 2 9\n"),
    (
        "undefined-large",
        "forty digits: defined is the variable before it",
        "aag 5000000000000000000000000000000000000000 1 1 1 0\n9999999999999999999999999999999999999998\n\
         @4 10000000000000000000000000000000000000000\n4\n",
    ),
    (
        "undefined-64-bits",
        "the input's literal and 2^64",
        "aag 18446744073709551615 1 1 1 0\n2\n@4 18446744073709551618\n4\n",
    ),
    ("form-before-undefined", "an undefined next, and a gate line of one number", "aag 4 1 1 1 1\n2\n4 8\n4\n@6\n"),
    (
        "symbol-before-undefined",
        "an undefined next, and a symbol without a name",
        "aag 4 1 1 1 1\n2\n4 8\n4\n6 2 5\n@i0\n",
    ),
    ("symbol-before-circle", "a circle, and a position named twice", "aag 3 1 1 1 1\n2\n4 6\n4\n6 6 5\ni0 x\n@i0 x\n"),
    ("circle-one", "a gate that needs itself", "aag 3 1 1 1 1\n2\n4 6\n4\n@6 6 5\n"),
    ("circle-negated", "a gate that needs its own negation", "aag 3 1 1 1 1\n2\n4 6\n4\n@6 2 7\n"),
    ("circle-two", "two gates that need each other", "aag 4 1 1 1 2\n2\n4 6\n4\n@6 8 5\n8 2 6\n"),
    ("circle-false", "a gate that needs itself and is false at any rate", "aag 3 1 1 1 1\n2\n4 6\n4\n@6 6 0\n"),
    ("circle-after-good", "a good gate before the circle", "aag 5 1 1 1 3\n2\n4 6\n4\n6 2 5\n@8 10 2\n10 8 2\n"),
    ("needs-circle-before", "a gate that needs a circle, before it", "aag 4 1 1 1 2\n2\n4 6\n4\n@6 8 5\n8 8 2\n"),
    ("needs-circle-after", "a gate that needs a circle, after it", "aag 4 1 1 1 2\n2\n4 6\n4\n@8 8 2\n6 8 5\n"),
    (
        "needs-undefined",
        "a gate that needs a gate of an undefined variable",
        "aag 5 1 1 1 2\n2\n4 6\n4\n@6 8 5\n8 10 2\n",
    ),
    ("circle-of-latch", "a latch and an output of a gate in a circle", "aag 4 1 1 1 2\n2\n4 8\n9\n6 2 5\n@8 8 2\n"),
    ("undefined-before-circle", "an undefined output, and a circle", "aag 4 1 1 1 1\n2\n4 6\n@8\n6 6 5\n"),
];

/// Lemma texts beside a circuit of two latches.
const LEMMAS: Table = &[
    ("lemma-not-closed", "no 0", "@1\n"),
    ("lemma-empty-line", "an empty line", "1 0\n@\n2 0\n"),
    ("lemma-minus-zero", "closed by -0", "@1 -0\n"),
    ("lemma-minus-zero-alone", "nothing but -0", "@-0\n"),
    ("lemma-zero-inside", "two zeros", "@1 0 0\n"),
    ("lemma-zero-first", "a zero before a latch number", "@0 1 0\n"),
    ("lemma-after-zero", "a latch number after the 0", "@1 0 2\n"),
    ("lemma-two-zeros", "nothing but two zeros", "@0 0\n"),
    ("lemma-plus", "a plus", "@+1 0\n"),
    ("lemma-minus-minus", "two signs", "@--1 0\n"),
    ("lemma-minus-alone", "a sign without a number", "@- 0\n"),
    ("lemma-minus-space", "a space after the sign", "@- 1 0\n"),
    ("lemma-over", "latch L + 1", "1 2 0\n@1 3 0\n"),
    ("lemma-over-negated", "latch L + 1, negated", "@-3 0\n"),
    ("lemma-over-large", "latch 2^64 + 1", "@18446744073709551617 0\n"),
    ("lemma-two-spaces", "two spaces", "@1  0\n"),
    ("lemma-space-first", "a space at the start", "@ 1 0\n"),
    ("lemma-space-last", "a space at the end", "@1 0 \n"),
    ("lemma-tab", "a tab for a space", "@1\t0\n"),
    ("lemma-return", "a carriage return", "@1 0\r\n"),
    ("lemma-zero-byte", "a zero byte", "@1 0\0\n"),
    ("lemma-newline", "the last line without its newline", "1 0\n@2 0"),
    ("lemma-comment", "a line c", "1 0\n@c\n"),
    ("lemma-letter", "a letter", "@1 x 0\n"),
];

const TWO_LATCHES: &str = "aag 2 0 2 1 0\n2 4\n4 2\n2\n";

/// Each of the tables with the text it is beside, then the limits, then pairs of faults.
pub fn late_refusals() -> Vec<Sample> {
    let gates = GATES.iter().map(|(name, line, circuit)| sample(name, line, circuit.as_bytes(), b"", 0));
    let lemma =
        |&(name, line, lemmas): &(&str, &str, &str)| sample(name, line, TWO_LATCHES.as_bytes(), lemmas.as_bytes(), 0);
    gates.chain(LEMMAS.iter().map(lemma)).chain(limits()).chain(orders()).chain(long_texts()).collect()
}

/// A circuit of so many inputs, latches and outputs.
pub fn counted(inputs: usize, latches: usize, outputs: usize) -> String {
    let most = inputs + latches;
    let mut text = format!("aag {most} {inputs} {latches} {outputs} 0\n");
    text.extend((1..=inputs).map(|v| format!("{}\n", 2 * v)));
    text.extend((inputs + 1..=most).map(|v| format!("{0} {0}\n", 2 * v)));
    text.extend((0..outputs).map(|at| format!("{}\n", 2 * most + at % 2)));
    text
}

fn over(name: &str, line: &str, circuit: &str, lemmas: &str) -> Sample {
    sample(name, line, circuit.as_bytes(), lemmas.as_bytes(), 14)
}

fn limits() -> Vec<Sample> {
    let gates =
        format!("aag 322 1 1 1 320\n2\n4 2\n4\n{}", (3..=322).map(|v| format!("{} 2 4\n", 2 * v)).collect::<String>());
    vec![
        over("14-no-latch", "no latch", &counted(1, 0, 1), ""),
        over("14-latches", "97 latches", &counted(0, 97, 1), ""),
        over("14-inputs", "321 inputs", &counted(321, 1, 1), ""),
        over("14-gates", "one input and 320 gates", &gates, ""),
        over("14-no-output", "no output", &counted(1, 1, 0), ""),
        over("14-outputs", "two outputs", &counted(1, 1, 2), ""),
        over("14-lemmas", "129 lemmas", PLAIN, &"1 0\n".repeat(129)),
        over("14-literals", "a lemma of 65 literals", PLAIN, &("1 ".repeat(65) + "0\n")),
        over("14-nothing", "nothing at all: neither latch nor output", "aag 0 0 0 0 0\n", ""),
        over("14-empty-lemma-no-latch", "no latch, and an empty clause", &counted(1, 0, 1), "0\n"),
    ]
}

/// Two faults, of which one comes first.
fn orders() -> Vec<Sample> {
    let lemmas = "1 0\n".repeat(129);
    let latches = counted(0, 97, 1);
    let undefined = "aag 4 1 1 2 1\n2\n4 6\n4\n@8\n6 2 5\n";
    let circle = "aag 3 1 1 0 1\n2\n4 6\n@6 6 5\n";
    vec![
        over("circuit-then-lemmas", "both texts at fault", "aag 3 1 1 1 1\n2\n4 6\n4\n@7 2 5\n", "x\n"),
        over(
            "undefined-then-lemmas",
            "an undefined output, and a lemma at fault",
            "aag 4 1 1 1 1\n2\n4 6\n@8\n6 2 5\n",
            "x\n",
        ),
        over("circuit-then-limit", "97 latches, and a line too many", &(latches.clone() + "@x\n"), ""),
        over("undefined-then-limit", "an undefined variable, and two outputs", undefined, ""),
        over("circle-then-limit", "a circle, and no output", circle, ""),
        over("circuit-then-lemma-limit", "a line too many, and 129 lemmas", &format!("{PLAIN}@x\n"), &lemmas),
        over("lemma-then-limit", "97 latches, and a lemma at fault", &latches, "1 0\n@98 0\n"),
        over("lemma-then-no-latch", "no latch, and a lemma that names one", &counted(1, 0, 1), "@1 0\n"),
        over("lemma-then-lemma-limit", "129 lemmas, and then one at fault", PLAIN, &(lemmas + "@2 0\n")),
        over("lemma-then-literals", "65 literals, and then a lemma at fault", PLAIN, &("1 ".repeat(65) + "0\n@1\n")),
    ]
}

/// A text with a comment that makes it so many bytes long.
pub fn padded(text: &str, bytes: usize) -> String {
    let mut text = format!("{text}c\n");
    text.extend(std::iter::repeat_n('-', bytes - text.len()));
    text
}

/// Texts of one byte more than 65,536, or two with the sign.
fn long_texts() -> Vec<Sample> {
    let long = |text: &str| padded(text, Problem::FILE_BYTES + 1 + text.contains('@') as usize);
    let lemma = |text: &str| format!("{}{text}", "0".repeat(Problem::FILE_BYTES - 1) + "\n");
    let zeros = "0".repeat(Problem::FILE_BYTES) + "\n";
    vec![
        over("long", "65,537 bytes", &long(PLAIN), ""),
        over("long-lemmas", "65,537 bytes of one empty clause", PLAIN, &zeros),
        over(
            "long-at-fault",
            "65,537 bytes, and a literal that is odd",
            &long("aag 3 1 1 1 1\n@3\n4 6\n4\n6 2 5\n"),
            "",
        ),
        over("long-symbol", "65,537 bytes, and a symbol without a name", &long(&format!("{PLAIN}@i0\n")), ""),
        over(
            "long-twice",
            "65,537 bytes, and a variable defined twice",
            &long("aag 3 1 1 1 1\n2\n4 2\n4\n2 4 5\n"),
            "",
        ),
        over("long-named", "65,537 bytes, and a position named twice", &long(&format!("{PLAIN}i0 x\ni0 y\n")), ""),
        over(
            "long-undefined",
            "65,537 bytes, and a variable not defined",
            &long("aag 4 1 1 1 1\n2\n4 8\n4\n6 2 5\n"),
            "",
        ),
        over("long-circle", "65,537 bytes, and a circle", &long("aag 3 1 1 1 1\n2\n4 6\n4\n6 6 5\n"), ""),
        over("long-then-lemmas", "65,537 bytes, and a lemma at fault", &long(PLAIN), "@x\n"),
        over(
            "long-lemmas-at-fault",
            "more than 65,536 bytes of lemmas, the last at fault",
            PLAIN,
            &lemma("1 0\n@2 0\n"),
        ),
        over(
            "circuit-then-long-lemmas",
            "a circuit at fault, and a long lemma text",
            "aag 3 1 1 1 1\n@3\n",
            &lemma("1 0\n"),
        ),
    ]
}
