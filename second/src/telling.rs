//! For each mutant a stored file and a call with it that tells the mutant apart from the true rules.

use crate::bench::case;
use crate::find::{telling_call, Maker};
use crate::jobs::{Job, Report};
use crate::mutants::{Rules, MUTANTS};
use crate::random::{problem, problem_with_state_bad};
use crate::refusals::refusals;
use crate::subject::{Call, Outcome, Second};

const SEED: u64 = 7;
const FILES: usize = 50_000;

/// A call that tells a mutant, and where its file is stored.
pub struct Telling {
    pub mutant: Rules,
    pub path: String,
    pub call: Call,
}

/// One for each mutant that can be told.
pub fn tellings() -> Vec<Telling> {
    let told = MUTANTS.iter().map(|&(mutant, _)| mutant).filter(|mutant| mutant.can_be_told());
    told.map(telling).collect()
}

fn telling(mutant: Rules) -> Telling {
    if let Some(name) = refusal_that_tells(mutant) {
        let found = refusals().into_iter().find(|refused| refused.name == name);
        let file = found.expect("the collection has this name").file;
        let path = format!("refusals/{name}.problem");
        let job = if mutant.breaks(Rules::SpaceBeforeLaterBytes) { Job::Largest } else { Job::Check };
        return Telling { mutant, path, call: Call { job, file, budget: 0, space: 0 } };
    }
    if mutant.breaks(Rules::SpaceAfterSearch) {
        let call = Call { job: Job::Largest, file: case("Q").file(), budget: 0, space: 0 };
        return Telling { mutant, path: "Q.problem".to_string(), call };
    }
    let call = telling_call(mutant, maker(mutant), FILES, SEED).expect("some random file tells this mutant");
    Telling { mutant, path: format!("mutants/{}.problem", mutant.name()), call }
}

/// The mutants of inputs and helpers in Bad are told by a file where Bad names them, all others without.
fn maker(mutant: Rules) -> Maker {
    match mutant {
        Rules::BadInputsRefused
        | Rules::BadLastInputOnly
        | Rules::BadForAllInputs
        | Rules::BadLastInputFree
        | Rules::BadClauseByClause => problem,
        _ => problem_with_state_bad,
    }
}

/// The mutants of the order of refusals, and one that lets a literal through, are told by a file of that collection.
fn refusal_that_tells(mutant: Rules) -> Option<&'static str> {
    Some(match mutant {
        Rules::FileSizeLast => "1-before-3",
        Rules::LengthBeforeKind => "3-before-4",
        Rules::BodyBeforeKind => "3-before-2",
        Rules::BodyBeforeLength => "4-before-2",
        Rules::CountBeforeBody => "2-before-7",
        Rules::ContentBeforeCount => "7-before-6",
        Rules::ContentLast => "6-then-3",
        Rules::GoesOnAfterEnd => "8-not-2",
        Rules::SpaceBeforeLaterBytes => "8",
        Rules::BadNextLetThrough => "6-bad-next-first",
        _ => return None,
    })
}

impl Telling {
    /// The line of the index: mutant, file, job, budget, space, and the answer of the true rules.
    pub fn line(&self) -> String {
        let Call { job, budget, space, .. } = self.call;
        let answer = answer_line(&self.call.outcome(&Second(Rules::TRUE)));
        let mutant = self.mutant.name();
        format!("{mutant} {} {} {budget} {space} {answer}\n", self.path, job.name())
    }
}

/// An answer in words of a line: the seven fields of the report, then the lent bytes or a dash.
pub fn answer_line(outcome: &Outcome) -> String {
    let Report { number, place, decisions, rows, n, m, k } = outcome.report;
    let lent: String = outcome.lent().iter().map(|byte| format!("{byte:02X}")).collect();
    let lent = if lent.is_empty() { "-".to_string() } else { lent };
    format!("{number} {place} {decisions} {rows} {n} {m} {k} {lent}")
}

pub const INDEX_HEAD: &str = "\
# One line for each mutant: its name, a file, and a call of a job with that file that tells it apart:
# mutant file job budget space, then the answer of the true rules:
# number place decisions rows n m k lent-bytes-afterwards (A0 B1 .. patterns are bytes left untouched).
";
