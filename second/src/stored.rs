//! All files of the folder `cases` that are made and not given: bench cases, families, refusals, the
//! calls that tell mutants, and the indexes that say what each file is.

use crate::bench::CASES;
use crate::circuit_stored::circuit_stored;
use crate::families::FAMILIES;
use crate::jobs::{call, Job, Report};
use crate::limits::most_of_all;
use crate::mutants::Rules;
use crate::refusals::refusals;
use crate::telling::{tellings, INDEX_HEAD};
use crate::text::{listing_text, BUDGET};

/// A stored file: its path within the folder, and its bytes.
pub struct Stored {
    pub path: String,
    pub bytes: Vec<u8>,
}

/// Every made file. The two real files and the three real circuits beside them are given.
pub fn stored() -> Vec<Stored> {
    let mut files = problems();
    files.extend(refused());
    files.extend(telling());
    files.extend(circuit_stored());
    files
}

const HEAD: &str = "\
# One line for each problem file that is made: what it is, its sizes, and what the jobs say of it at
# budget 1,000,000: the marks (or the refusal) with the decisions, then the first line of the listing.
";

fn problems() -> Vec<Stored> {
    let mut files = Vec::new();
    let mut index = HEAD.to_string();
    let mut add = |name: String, what: &str, bytes: Vec<u8>| {
        let path = format!("{name}.problem");
        index += &line(&path, what, &bytes);
        files.push(Stored { path, bytes });
    };
    for case in &CASES {
        add(case.name.to_string(), case.line, case.file());
    }
    let most = "the largest n, the largest m and the most lemmas, and none of them inductive";
    add("M".to_string(), most, most_of_all().to_bytes());
    for family in &FAMILIES {
        for &size in family.sizes {
            add(format!("{}-{size}", family.name), family.line, (family.make)(size).to_bytes());
        }
    }
    files.push(Stored { path: "INDEX.txt".to_string(), bytes: index.into_bytes() });
    files
}

fn line(path: &str, what: &str, file: &[u8]) -> String {
    let Report { n, m, k, .. } = call(Job::Check, file, 0, &mut [], Rules::TRUE);
    let largest = marks(Job::Largest, file, k as usize);
    let one = marks(Job::One, file, k as usize);
    let text = listing_text(file);
    let listing = text.lines().next().unwrap_or("");
    format!("{path}: {what} [n {n} m {m} k {k}; largest {largest}; one {one}; {listing}]\n")
}

/// The marks of a marking job in digits, or its refusal, with the decisions.
fn marks(job: Job, file: &[u8], k: usize) -> String {
    let mut lent = vec![0; k];
    let report = call(job, file, BUDGET, &mut lent, Rules::TRUE);
    let digits: String = lent.iter().map(|mark| mark.to_string()).collect();
    let answer = match report.number {
        0 if k == 0 => "of no marks".to_string(),
        0 => digits,
        number => format!("refused by {number}"),
    };
    format!("{answer} with {}", report.decisions)
}

fn refused() -> Vec<Stored> {
    let mut files = Vec::new();
    let mut index = "# One line for each refused file: its name, the number, the place, what it is.\n".to_string();
    for refused in refusals() {
        index += &format!("{} {} {} {}\n", refused.name, refused.number, refused.place, refused.line);
        files.push(Stored { path: format!("refusals/{}.problem", refused.name), bytes: refused.file });
    }
    files.push(Stored { path: "refusals/INDEX.txt".to_string(), bytes: index.into_bytes() });
    files
}

fn telling() -> Vec<Stored> {
    let mut files = Vec::new();
    let mut index = INDEX_HEAD.to_string();
    let mut notation = "# What each of these files holds, in the notation of document 01.\n".to_string();
    for telling in tellings() {
        index += &telling.line();
        if telling.path.starts_with("mutants/") {
            if let Some(problem) = telling.call.problem() {
                notation += &format!("{}: {problem}\n", telling.mutant.name());
            }
            files.push(Stored { path: telling.path, bytes: telling.call.file });
        }
    }
    files.push(Stored { path: "mutants/INDEX.txt".to_string(), bytes: index.into_bytes() });
    files.push(Stored { path: "mutants/NOTATION.txt".to_string(), bytes: notation.into_bytes() });
    files
}
