//! Pairs of texts that are read, each with something that a reader could stumble on, and the problem they give.

use crate::circuit_accepted_newer::newer_accepted;
use crate::circuit_faults_late::{counted, padded};
use crate::circuit_sample::{sample, Sample, PLAIN};
use crate::file::Problem;

/// A pair that is read, and its problem in the notation of the bench cases; no problem is written down for long ones.
pub struct Accepted {
    pub sample: Sample,
    pub built: &'static str,
}

pub fn accepted(name: &str, line: &str, circuit: &str, lemmas: &str, built: &'static str) -> Accepted {
    Accepted { sample: sample(name, line, circuit.as_bytes(), lemmas.as_bytes(), 0), built }
}

pub const PLAIN_BUILT: &str =
    "n=1 m=2; Init (-1); Tr (3 -4)(-1 -4)(4 -3 1)(-2 4)(2 -4); Bad (3 -4)(-1 -4)(4 -3 1)(1); lemmas (-1)";
const INPUT_AND_LATCH: &str = "n=1 m=1; Init (-1); Tr (-2 3)(2 -3); Bad (1)";

/// Those of edition 2007.
pub fn older_accepted() -> Vec<Accepted> {
    let groups = [gates(), numbers(), symbols(), lemmas(), limits()];
    groups.into_iter().flatten().collect()
}

pub fn all_accepted() -> Vec<Accepted> {
    older_accepted().into_iter().chain(newer_accepted()).collect()
}

fn gates() -> Vec<Accepted> {
    vec![
        accepted("plain", "one input, one latch, one gate of both", PLAIN, "-1 0\n", PLAIN_BUILT),
        accepted(
            "orders",
            "neither inputs nor latches nor gates stand by their literals, and gates are used before their lines",
            "aag 9 2 2 1 3\n18\n4\n16 6\n2 13\n10\n10 12 6\n6 4 17\n12 7 18\n",
            "1 -2 0\n0\n",
            "n=2 m=5; Init (-1)(-2); \
             Tr (9 -7)(8 -7)(7 -9 -8)(6 -8)(-1 -8)(8 -6 1)(-8 -9)(5 -9)(9 8 -5)(-3 8)(3 -8)(-4 -9)(4 9); \
             Bad (9 -7)(8 -7)(7 -9 -8)(6 -8)(-1 -8)(8 -6 1)(-8 -9)(5 -9)(9 8 -5)(7); lemmas (1 -2),()",
        ),
        accepted(
            "constants",
            "each constant as each input of a gate",
            "aag 6 0 1 1 5\n2 6\n4\n4 0 2\n6 2 1\n8 1 1\n10 0 1\n12 1 0\n",
            "",
            "n=1 m=5; Init (-1); Tr (-3)(1 -3)(1 -4)(4 -1)(5)(-6)(-7)(-2 4)(2 -4); \
             Bad (-3)(1 -3)(1 -4)(4 -1)(5)(-6)(-7)(3)",
        ),
        accepted(
            "constant-next",
            "constants as next values, and an output that is never 1",
            "aag 2 0 2 1 0\n2 0\n4 1\n0\n",
            "-1 0\n",
            "n=2 m=0; Init (-1)(-2); Tr (-3)(4); Bad (); lemmas (-1)",
        ),
        accepted(
            "constant-output",
            "an output that is always 1: every state is bad",
            "aag 1 0 1 1 0\n2 2\n1\n",
            "",
            "n=1 m=0; Init (-1); Tr (-2 1)(2 -1)",
        ),
        accepted(
            "equal-inputs",
            "a gate of one literal twice",
            "aag 3 1 1 1 1\n2\n4 6\n7\n6 2 2\n",
            "",
            "n=1 m=2; Init (-1); Tr (3 -4)(3 -4)(4 -3 -3)(-2 4)(2 -4); Bad (3 -4)(3 -4)(4 -3 -3)(-4)",
        ),
        accepted(
            "opposite-inputs",
            "a gate of a literal and its negation",
            "aag 3 1 1 1 1\n2\n4 6\n7\n6 2 3\n",
            "",
            "n=1 m=2; Init (-1); Tr (3 -4)(-3 -4)(4 -3 3)(-2 4)(2 -4); Bad (3 -4)(-3 -4)(4 -3 3)(-4)",
        ),
        accepted(
            "unused",
            "an input and a gate that nothing uses",
            "aag 4 2 1 1 1\n2\n4\n6 4\n6\n8 6 6\n",
            "",
            "n=1 m=3; Init (-1); Tr (1 -5)(1 -5)(5 -1 -1)(-2 4)(2 -4); Bad (1 -5)(1 -5)(5 -1 -1)(1)",
        ),
        accepted("backwards", "a chain of 300 gates, each used before its line", &backwards(300), "-1 0\n", ""),
    ]
}

/// Gate g is the one after it and the input; the last is the latch and the input.
pub fn backwards(gates: usize) -> String {
    let mut text = format!("aag {} 1 1 1 {gates}\n2\n4 6\n6\n", gates + 2);
    for at in 0..gates {
        let from = if at + 1 == gates { 4 } else { 2 * (at + 4) };
        text += &format!("{} {from} 2\n", 2 * (at + 3));
    }
    text
}

fn numbers() -> Vec<Accepted> {
    let zeros = "aag 003 01 1 0001 1\n002\n04 6\n4\n6 00002 05\ni00 x\n";
    let large = "aag 5000000000000000000000000000000000000000 1 1 1 0\n\
                 9999999999999999999999999999999999999998\n\
                 10000000000000000000000000000000000000000 9999999999999999999999999999999999999998\n\
                 10000000000000000000000000000000000000000\n";
    vec![
        accepted("zeros", "leading zeros wherever a number stands", zeros, "-001 000\n", PLAIN_BUILT),
        accepted("large", "literals of forty digits, up to 2M", large, "", INPUT_AND_LATCH),
        accepted(
            "large-last",
            "the last literal of all, 2M + 1, where M has twenty digits",
            "aag 10000000000000000000 1 1 1 0\n2\n20000000000000000000 20000000000000000001\n20000000000000000001\n",
            "",
            "n=1 m=1; Init (-1); Tr (-2 -1)(2 1); Bad (-1)",
        ),
        accepted(
            "last",
            "the last literal of all, 2M + 1",
            "aag 2 1 1 1 0\n2\n4 5\n2\n",
            "",
            "n=1 m=1; Init (-1); Tr (-2 -1)(2 1); Bad (3)",
        ),
        accepted(
            "64-bits",
            "two variables whose numbers are 2^64 apart",
            "aag 36893488147419103232 1 1 1 0\n36893488147419103234\n2 36893488147419103234\n2\n",
            "",
            INPUT_AND_LATCH,
        ),
    ]
}

fn symbols() -> Vec<Accepted> {
    let with =
        |name: &str, line: &str, more: &str| accepted(name, line, &format!("{PLAIN}{more}"), "-1 0\n", PLAIN_BUILT);
    vec![
        with("symbols", "letters in any order, each with position 0", "o0 bad\nl0 a\ni0 a\n"),
        with("symbol-names", "names of spaces and other bytes", "i0  \nl0 \0\t\r\no0 i0 x\nc\n"),
        with("comment", "a comment of no bytes", "c\n"),
        with("comment-anything", "a comment that is no lines", "i0 x\nc\ni0 x\n\ni9\n\0c"),
    ]
}

fn lemmas() -> Vec<Accepted> {
    let none = PLAIN_BUILT.split("; lemmas").next().unwrap_or("");
    vec![
        accepted("no-lemmas", "an empty lemma text", PLAIN, "", none),
        accepted(
            "lemmas",
            "an empty clause, equal lemmas, literals twice and with their negation",
            "aag 1 0 1 1 0\n2 2\n1\n",
            "0\n-1 0\n-1 0\n1 1 -1 00\n",
            "n=1 m=0; Init (-1); Tr (-2 1)(2 -1); lemmas (),(-1),(-1),(1 1 -1)",
        ),
    ]
}

/// As much as each limit allows.
fn limits() -> Vec<Accepted> {
    let bytes = Problem::FILE_BYTES;
    let gates = (3..=321).map(|v| format!("{} 2 4\n", 2 * v)).collect::<String>();
    let helpers = format!("aag 321 1 1 1 319\n2\n4 2\n4\n{gates}");
    let lemma = "0".repeat(bytes - 1) + "\n";
    vec![
        accepted("latches-96", "96 latches", &counted(0, 96, 1), "96 0\n", ""),
        accepted("inputs-320", "320 inputs", &counted(320, 1, 1), "", ""),
        accepted("helpers-320", "one input and 319 gates", &helpers, "", ""),
        accepted("lemmas-128", "128 lemmas", PLAIN, &"-1 0\n".repeat(128), ""),
        accepted("literals-64", "a lemma of 64 literals", PLAIN, &("-1 ".repeat(64) + "0\n"), ""),
        accepted("bytes", "65,536 bytes", &padded(PLAIN, bytes), "-1 0\n", PLAIN_BUILT),
        accepted("lemma-bytes", "65,536 bytes of one empty clause", PLAIN, &lemma, ""),
    ]
}
