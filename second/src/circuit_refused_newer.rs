//! Pairs of texts of edition 1.9 that are refused by 15, by 14, or by 13 beside one of them. The sign @ stands before
//! the line at fault.

use crate::circuit_faults_late::{counted, padded};
use crate::circuit_sample::{sample, Sample, NEWER};
use crate::file::Problem;

const JUSTICE: &str = "aag 3 1 1 0 1 1 0 1\n2\n4 6\n4\n1\n5\n6 2 5\n";

fn refused(name: &str, line: &str, circuit: &str, lemmas: &str, number: u64) -> Sample {
    sample(name, line, circuit.as_bytes(), lemmas.as_bytes(), number)
}

pub fn newer_refusals() -> Vec<Sample> {
    let groups = [liveness(), orders(), one_bad(), clauses(), long_texts()];
    groups.into_iter().flatten().collect()
}

fn liveness() -> Vec<Sample> {
    let pair = |name: &str, line: &str, circuit: &str| refused(name, line, circuit, "-1 0\n-1 0\n-1 0\n", 15);
    vec![
        pair("15-justice", "a justice set of one literal", JUSTICE),
        pair("15-fairness", "a fairness literal", "aag 3 1 1 0 1 1 0 0 1\n2\n4 6\n4\n5\n6 2 5\n"),
        pair("15-both", "both", "aag 3 1 1 0 1 1 1 1 2\n2\n4 6\n4\n3\n2\n5\n5\n2\n3\n6 2 5\n"),
        pair("15-empty", "a justice set of no literal", "aag 3 1 1 0 1 1 0 1\n2\n4 6\n4\n0\n6 2 5\n"),
        pair("15-sets", "three sets of 0, 2 and 1 literals", "aag 1 0 1 0 0 1 0 3\n2 2\n2\n0\n2\n1\n2\n3\n2\n"),
        pair(
            "15-count",
            "nine literals, more than 2M + 1",
            &format!("aag 1 0 1 0 0 1 0 1\n2 2\n2\n9\n{}", "2\n".repeat(9)),
        ),
        pair("15-interleaved", "counts that could be literals", "aag 1 0 1 0 0 1 0 2\n2 2\n2\n1\n2\n2\n3\n2\n"),
        pair("15-fairness-first", "in the other order at fault", "aag 1 0 1 0 0 1 0 1 2\n2 2\n2\n0\n3\n2\n"),
        pair("15-symbols", "symbols of both", "aag 1 0 1 0 0 1 0 1 1\n2 2\n2\n0\n3\nf0 x\nj0 y\nc\n"),
    ]
}

/// What comes before 15, and before what it comes.
fn orders() -> Vec<Sample> {
    let lemmas = "1 0\n".repeat(129);
    let latches = counted(0, 97, 1).replacen("aag 97 0 97 1 0\n", "aag 97 0 97 1 0 0 0 0 1\n", 1);
    let (latches, output) = latches.split_at(latches.len() - 4);
    vec![
        refused("circuit-then-15", "justice, and a line too many", &format!("{JUSTICE}@x\n"), "", 15),
        refused(
            "undefined-then-15",
            "justice of an undefined variable",
            &JUSTICE.replace("\n5\n", "\n@9\n").replace("aag 3", "aag 4"),
            "",
            15,
        ),
        refused("lemma-then-15", "justice, and a lemma at fault", JUSTICE, "1 0\n@2 0\n", 15),
        refused("15-then-no-latch", "fairness, and no latch", "aag 1 1 0 1 0 0 0 0 1\n2\n2\n3\n", "", 15),
        refused(
            "15-then-outputs",
            "fairness, a bad literal and an output",
            "aag 1 0 1 1 0 1 0 0 1\n2 2\n2\n2\n3\n",
            "",
            15,
        ),
        refused("15-then-latches", "fairness, and 97 latches", &format!("{latches}{output}2\n"), "", 15),
        refused("15-then-lemmas", "justice, and 129 lemmas", JUSTICE, &lemmas, 15),
        refused("15-then-literals", "justice, and a lemma of 65 literals", JUSTICE, &("1 ".repeat(65) + "0\n"), 15),
    ]
}

fn one_bad() -> Vec<Sample> {
    let over = |name: &str, line: &str, circuit: &str| refused(name, line, circuit, "", 14);
    vec![
        over("14-two-bad", "two bad literals", "aag 1 0 1 0 0 2\n2 2\n2\n3\n"),
        over("14-bad-and-output", "a bad literal and an output", "aag 1 0 1 1 0 1\n2 2\n2\n3\n"),
        over("14-bad-and-outputs", "a bad literal and two outputs", "aag 1 0 1 2 0 1\n2 2\n2\n2\n3\n"),
        over("14-two-bad-and-output", "two bad literals and an output", "aag 1 0 1 1 0 2\n2 2\n2\n2\n3\n"),
        over("14-neither", "neither bad literal nor output", "aag 1 0 1 0 0 0 1\n2 2\n3\n"),
        over("14-two-outputs", "two outputs and no bad literal", "aag 1 0 1 2 0 0\n2 2\n2\n3\n"),
        over("14-bad-no-latch", "a bad literal, and no latch", "aag 1 1 0 0 0 1\n2\n2\n"),
    ]
}

/// One latch with what its line says of the start, a bad literal, and so many constraints of one literal. Its clauses
/// are one in Init unless the latch starts at itself, two and one in Tr and Bad, and two for each constraint.
pub fn constrained(start: &str, constraints: usize, literal: usize) -> String {
    let lines = format!("{literal}\n").repeat(constraints);
    format!("aag 1 0 1 0 0 1 {constraints}\n2 2{start}\n2\n{lines}")
}

fn clauses() -> Vec<Sample> {
    let over = |name: &str, line: &str, circuit: &str, lemmas: &str| refused(name, line, circuit, lemmas, 14);
    vec![
        over("14-clauses", "4,097 clauses", &constrained(" 2", 2_047, 3), ""),
        over("14-clauses-start", "4,098 clauses, one of them in Init", &constrained(" 1", 2_047, 2), ""),
        over("14-clauses-lemmas", "4,097 clauses, two of them lemmas", &constrained(" 2", 2_046, 3), "1 0\n1 0\n"),
        over("14-clauses-false", "4,097 clauses, most of them empty", &constrained(" 2", 2_047, 0), ""),
        over("14-clauses-many", "30,000 constraints", &constrained("", 30_000, 2), ""),
    ]
}

/// Texts of one byte more than 65,536, or two with the sign.
fn long_texts() -> Vec<Sample> {
    let long = |text: &str| padded(text, Problem::FILE_BYTES + 1 + text.contains('@') as usize);
    let over = |name: &str, line: &str, circuit: &str| refused(name, line, &long(circuit), "", 14);
    vec![
        over("newer-long", "65,537 bytes", NEWER),
        over(
            "newer-long-start",
            "65,537 bytes, and a latch that starts at its negation",
            &NEWER.replace("4 6 4", "@4 6 5"),
        ),
        over("newer-long-constraint", "65,537 bytes, and a constraint over 2M + 1", &NEWER.replace("\n3\n", "\n@8\n")),
        over("newer-long-symbol", "65,537 bytes, and c0 without a name", &format!("{NEWER}@c0\n")),
        over("newer-long-named", "65,537 bytes, and c0 named twice", &format!("{NEWER}c0 x\nc0 y\n")),
        over(
            "newer-long-undefined",
            "65,537 bytes, and a constraint not defined",
            &NEWER.replace("\n3\n", "\n8\n").replace("aag 3", "aag 4"),
        ),
        refused("15-long", "65,537 bytes, and justice", &long(JUSTICE), "", 15),
        refused(
            "15-long-undefined",
            "65,537 bytes, and justice of an undefined variable",
            &long(&JUSTICE.replace("\n5\n", "\n9\n").replace("aag 3", "aag 4")),
            "",
            15,
        ),
        refused(
            "long-then-15",
            "65,537 bytes, a justice literal over 2M + 1",
            &long(&JUSTICE.replace("\n5\n", "\n@8\n")),
            "",
            15,
        ),
        refused(
            "long-lemmas-then-15",
            "justice, and 65,537 bytes of lemmas",
            JUSTICE,
            &("0".repeat(Problem::FILE_BYTES) + "\n"),
            15,
        ),
    ]
}
