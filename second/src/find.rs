//! Finds, for a mutant, a small call that tells it apart from the true rules.

use crate::file::Problem;
use crate::jobs::Job;
use crate::mutants::Rules;
use crate::random::{Random, Sizes, SMALL};
use crate::shrink::shrink;
use crate::subject::{Call, Second};

/// Makes a random problem.
pub type Maker = fn(&mut Random, Sizes) -> Problem;

/// The call found, made small; nothing if none of so many files that are made shows a difference.
pub fn telling_call(mutant: Rules, make: Maker, files: usize, seed: u64) -> Option<Call> {
    let shows = |call: &Call| call.differs(&Second(Rules::TRUE), &Second(mutant));
    let mut random = Random(seed);
    for _ in 0..files {
        let sizes = sizes(&mut random);
        let problem = make(&mut random, sizes);
        let (file, k) = (problem.to_bytes(), problem.k());
        for job in [Job::Largest, Job::One, Job::List] {
            for (budget, space) in [(u32::MAX, 8 * k), (2, 8 * k), (u32::MAX, k)] {
                let call = Call { job, file: file.clone(), budget, space };
                if shows(&call) {
                    return Some(tidy(shrink(call, &|call| shows(call)), &shows));
                }
            }
        }
    }
    None
}

fn sizes(random: &mut Random) -> Sizes {
    let larger = Sizes { n: 4, m: 3, clauses: 8, lemmas: 5, literals: 4 };
    if random.once_in(3) {
        larger
    } else {
        SMALL
    }
}

/// The same call with the largest budget and the room its rows take, where the difference shows
/// there too.
fn tidy(call: Call, shows: &dyn Fn(&Call) -> bool) -> Call {
    let open = Call { budget: u32::MAX, ..call.clone() };
    let call = if shows(&open) { open } else { call };
    let k = call.problem().map_or(0, |problem| problem.k());
    let wide = Call { space: 100 * k, ..call.clone() };
    let rows = wide.outcome(&Second(Rules::TRUE)).report.rows as usize;
    let roomy = Call { space: k * rows.max(1), ..call.clone() };
    if shows(&roomy) {
        roomy
    } else {
        call
    }
}
