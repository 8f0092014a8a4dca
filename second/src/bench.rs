//! The bench cases of document 01, two counted cases of an outside program and one of request 2026-01, as problems
//! with a name and a line that says what each is.

use crate::file::Problem;
use crate::notation::problem;

pub struct Case {
    pub name: &'static str,
    pub line: &'static str,
    pub text: &'static str,
}

impl Case {
    pub fn problem(&self) -> Problem {
        problem(self.text)
    }

    pub fn file(&self) -> Vec<u8> {
        self.problem().to_bytes()
    }
}

/// Cases C and D are case B with a small budget and a small space; M is among the refusals.
pub const CASES: [Case; 13] = [
    Case {
        name: "A",
        line: "two latches that swap values; each lemma needs the other",
        text: "n=2 m=0; Init (1)(2); Tr (-3 2)(3 -2)(-4 1)(4 -1); Bad (-2); lemmas (1),(2)",
    },
    Case {
        name: "B",
        line: "three latches that keep their value; two minimal sets (C: budget 2 and 1, D: 5 and 2 bytes)",
        text: "n=3 m=0; Init (1)(2)(3); Tr (-4 1)(4 -1)(-5 2)(5 -2)(-6 3)(6 -3); Bad (-1)(-2 -3); \
               lemmas (1),(2),(3)",
    },
    Case {
        name: "E",
        line: "A with lemma (2) only, which does not hold by itself",
        text: "n=2 m=0; Init (1)(2); Tr (-3 2)(3 -2)(-4 1)(4 -1); Bad (-2); lemmas (2)",
    },
    Case {
        name: "F",
        line: "one latch and the same lemma twice: two rows",
        text: "n=1 m=0; Init (1); Tr (-2 1)(2 -1); Bad (-1); lemmas (1),(1)",
    },
    Case {
        name: "G",
        line: "F with lemma (-1) only, which fails initiation",
        text: "n=1 m=0; Init (1); Tr (-2 1)(2 -1); Bad (-1); lemmas (-1)",
    },
    Case {
        name: "H",
        line: "no lemma, and a Bad clause with its literal twice, which is a decision",
        text: "n=1 m=0; Bad (1 1)",
    },
    Case {
        name: "I",
        line: "no lemma and a Bad that no state satisfies: one row of no bytes",
        text: "n=1 m=0; Bad (1)(-1)",
    },
    Case {
        name: "J",
        line: "two lemmas that hold only together beside the one that is needed",
        text: "n=3 m=0; Init (1)(2)(3); Tr (-4 2)(4 -2)(-5 1)(5 -1)(-6 3)(6 -3); Bad (-3); \
               lemmas (1),(2),(3)",
    },
    Case {
        name: "K",
        line: "no Init state, and the empty clause as the only lemma: it is kept",
        text: "n=1 m=0; Init (1)(-1); Tr (-2 1)(2 -1); Bad (-1); lemmas ()",
    },
    Case {
        name: "L",
        line: "F with one lemma: the 46 bytes that document 01 writes out",
        text: "n=1 m=0; Init (1); Tr (-2 1)(2 -1); Bad (-1); lemmas (1)",
    },
    Case {
        name: "P",
        line: "repeated literals and helpers, counted by an outside program",
        text: "n=4 m=2; Init (1 4)(-1 -1)(1); Tr (3 4 -1)(10 5)(1 -6 8)(-10 9)(-3)(7 5 -4); \
               Bad (-1 4)(3); lemmas (3),(-2 1),(4 1),(-4 -4 -4),(-2 3)",
    },
    Case {
        name: "Q",
        line: "no Tr and a largest set that is not safe, counted by an outside program",
        text: "n=2 m=2; Init (-2 -2)(-1); Bad (1); lemmas (1),(-1),(2 -1)",
    },
    Case {
        name: "checksum",
        line: "a loader that may apply a file only while the checksum line, an input, is high, unless both service \
               keys are on: Bad is 'applied while the checksum line is low'",
        text: "n=3 m=3; Init (-1)(-2)(-3); \
               Tr (-9 1)(-9 7 2)(-9 7 3)(9 -1 -7)(9 -1 -2 -3) (-4 8 1)(-4 8 -9)(4 -8)(4 -1 9) (-5 3)(5 -3) \
               (-6 2)(6 -2); \
               Bad (-9 1)(-9 7 2)(-9 7 3)(9 -1 -7)(9 -1 -2 -3) (9) (-7); \
               lemmas (-1 -2 -3),(-2),(-3),(-1),(-2 -3),(1)",
    },
];

pub fn case(name: &str) -> &'static Case {
    CASES.iter().find(|case| case.name == name).expect("a bench case has this name")
}
