//! Pairs of texts of edition 1.9 that are read, and the problem they give.

use crate::circuit_accepted::{accepted, Accepted, PLAIN_BUILT};
use crate::circuit_refused_newer::constrained;
use crate::circuit_sample::NEWER;

const NEWER_BUILT: &str =
    "n=1 m=2; Tr (3 -4)(-1 -4)(4 -3 1)(-2 4)(2 -4)(-3); Bad (3 -4)(-1 -4)(4 -3 1)(1)(-3); lemmas (-1)";

pub fn newer_accepted() -> Vec<Accepted> {
    let groups = [headers(), starts(), constraints(), symbols(), limits()];
    groups.into_iter().flatten().collect()
}

fn headers() -> Vec<Accepted> {
    let older = |name: &str, line: &str, header: &str| {
        accepted(name, line, &format!("{header}\n2\n4 6\n4\n6 2 5\n"), "-1 0\n", PLAIN_BUILT)
    };
    vec![
        older("newer-six", "six numbers, and the output is Bad", "aag 3 1 1 1 1 0"),
        older("newer-eight", "eight numbers", "aag 3 1 1 1 1 0 0 0"),
        older("newer-nine", "nine numbers", "aag 3 1 1 1 1 0 0 0 0"),
        older("newer-bad", "a bad literal in the place of the output", "aag 3 1 1 0 1 1"),
        older("newer-bad-seven", "a bad literal, and seven numbers", "aag 3 1 1 0 1 1 0"),
        accepted(
            "newer-zeros",
            "leading zeros wherever a number of edition 1.9 stands",
            "aag 3 1 1 00 1 01 001 00 000\n2\n4 6 004\n04\n0003\n6 2 5\nc00 x\n",
            "-1 0\n",
            NEWER_BUILT,
        ),
    ]
}

fn starts() -> Vec<Accepted> {
    vec![
        accepted(
            "newer-starts",
            "latches that start at 0 without saying so, at 0, at 1 and at themselves",
            "aag 4 0 4 0 0 1\n2 2\n4 4 0\n6 6 1\n8 8 8\n2\n",
            "-1 3 0\n",
            "n=4 m=0; Init (-1)(-2)(3); Tr (-5 1)(5 -1)(-6 2)(6 -2)(-7 3)(7 -3)(-8 4)(8 -4); Bad (1); lemmas (-1 3)",
        ),
        accepted(
            "newer-starts-zeros",
            "the same with leading zeros, and an output",
            "aag 3 0 3 1 0 0\n2 2 000\n4 4 01\n6 6 006\n3\n",
            "",
            "n=3 m=0; Init (-1)(2); Tr (-4 1)(4 -1)(-5 2)(5 -2)(-6 3)(6 -3); Bad (-1)",
        ),
        accepted(
            "newer-starts-large",
            "a latch of forty digits that starts at itself, and a second that starts at 1",
            "aag 5000000000000000000000000000000000000000 0 2 0 0 1\n\
             10000000000000000000000000000000000000000 2 10000000000000000000000000000000000000000\n\
             2 10000000000000000000000000000000000000001 0000000000000000000000000000000000000001\n2\n",
            "",
            "n=2 m=0; Init (2); Tr (-3 2)(3 -2)(-4 -1)(4 1); Bad (2)",
        ),
        accepted(
            "newer-starts-free",
            "every latch starts at itself: no Init clause",
            "aag 2 0 2 0 0 1\n2 4 2\n4 2 4\n2\n",
            "1 -1 0\n",
            "n=2 m=0; Tr (-3 2)(3 -2)(-4 1)(4 -1); Bad (1); lemmas (1 -1)",
        ),
    ]
}

fn constraints() -> Vec<Accepted> {
    vec![
        accepted(
            "newer-plain",
            "a latch that starts at itself, a bad literal, a constraint",
            NEWER,
            "-1 0\n",
            NEWER_BUILT,
        ),
        accepted(
            "newer-constraints",
            "an input, a latch and a gate as constraints, the last two negated, beside an output",
            "aag 3 1 1 1 1 0 3\n2\n4 6 1\n4\n2\n5\n7\n6 2 5\n",
            "",
            "n=1 m=2; Init (1); Tr (3 -4)(-1 -4)(4 -3 1)(-2 4)(2 -4)(3)(-1)(-4); \
             Bad (3 -4)(-1 -4)(4 -3 1)(1)(3)(-1)(-4)",
        ),
        accepted(
            "newer-constraint-true",
            "constraints that are constantly true",
            "aag 1 0 1 0 0 1 2\n2 2\n2\n1\n1\n",
            "",
            "n=1 m=0; Init (-1); Tr (-2 1)(2 -1); Bad (1)",
        ),
        accepted(
            "newer-constraint-false",
            "a constraint that is constantly false: there is no step, and no state is bad",
            "aag 1 0 1 0 0 1 1\n2 2 1\n2\n0\n",
            "-1 0\n",
            "n=1 m=0; Init (1); Tr (-2 1)(2 -1)(); Bad (1)(); lemmas (-1)",
        ),
        accepted(
            "newer-constraints-equal",
            "a constraint twice, and then its negation",
            "aag 1 0 1 0 0 1 3\n2 2\n2\n3\n3\n2\n",
            "",
            "n=1 m=0; Init (-1); Tr (-2 1)(2 -1)(-1)(-1)(1); Bad (1)(-1)(-1)(1)",
        ),
        accepted(
            "newer-bad-true",
            "a bad literal that is constantly true, and a constraint",
            "aag 1 0 1 0 0 1 1\n2 3\n1\n2\n",
            "-1 0\n",
            "n=1 m=0; Init (-1); Tr (-2 -1)(2 1)(1); Bad (1); lemmas (-1)",
        ),
        accepted(
            "newer-bad-false",
            "a bad literal that is constantly false",
            "aag 1 0 1 0 0 1\n2 2\n0\n",
            "",
            "n=1 m=0; Init (-1); Tr (-2 1)(2 -1); Bad ()",
        ),
        accepted(
            "newer-orders",
            "nothing stands by its literals, and the constraints are a latch and a gate",
            "aag 9 2 2 0 3 1 2\n18\n4\n16 6 1\n2 13 2\n10\n17\n12\n10 12 6\n6 4 17\n12 7 18\n",
            "1 -2 0\n0\n",
            "n=2 m=5; Init (1); \
             Tr (9 -7)(8 -7)(7 -9 -8)(6 -8)(-1 -8)(8 -6 1)(-8 -9)(5 -9)(9 8 -5)(-3 8)(3 -8)(-4 -9)(4 9)(-1)(9); \
             Bad (9 -7)(8 -7)(7 -9 -8)(6 -8)(-1 -8)(8 -6 1)(-8 -9)(5 -9)(9 8 -5)(7)(-1)(9); lemmas (1 -2),()",
        ),
    ]
}

fn symbols() -> Vec<Accepted> {
    let with =
        |name: &str, line: &str, more: &str| accepted(name, line, &format!("{NEWER}{more}"), "-1 0\n", NEWER_BUILT);
    vec![
        with("newer-symbols", "letters in any order, with names of odd bytes", "c0 a b\nb0 \0c\r\nl0 st[0]\ni0 c\n"),
        with("newer-comment", "a symbol c0, then the comment", "c0 x\nc\nc0 x\nc1\n"),
    ]
}

/// As much as the limit of clauses allows.
fn limits() -> Vec<Accepted> {
    let sizes = "";
    let (most, lemmas) = most();
    let true_constraints = constrained("", 32_750, 1);
    vec![
        accepted("newer-clauses", "4,096 clauses, one of them a lemma", &constrained(" 2", 2_046, 3), "1 0\n", sizes),
        accepted("newer-clauses-false", "4,096 clauses, most of them empty", &constrained(" 0", 2_046, 0), "", sizes),
        accepted("newer-clauses-dropped", "2,100 constraints without a clause", &constrained("", 2_100, 1), "", sizes),
        accepted("newer-clauses-true", "32,750 constraints without a clause", &true_constraints, "", sizes),
        accepted("newer-most", "4,096 clauses and the longest file, of 46,220 bytes", &most, &lemmas, sizes),
    ]
}

/// 96 latches of which one starts at itself, 320 gates, 880 constraints, and 128 lemmas of 64 literals that do not hold
/// at the start, so that no job takes long.
fn most() -> (String, String) {
    let mut circuit = "aag 416 0 96 0 320 1 880\n".to_string();
    circuit.extend((1..96).map(|v| format!("{} {}\n", 2 * v, 2 * (v + 96))));
    circuit += "192 384 192\n832\n";
    circuit += &"194\n".repeat(880);
    circuit.extend((0..320).map(|at| format!("{} {} {}\n", 194 + 2 * at, 2 + 2 * (at % 96), 3 + 2 * (at % 95))));
    let lemma: String = (1..=64).map(|latch| format!("{latch} ")).collect();
    (circuit, (lemma + "0\n").repeat(128))
}
