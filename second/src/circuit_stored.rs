//! The files of the folder `cases/circuits` that are made: pairs that are refused, pairs that are read, and the calls
//! that tell mutants, with their indexes.

use crate::circuit_accepted::{all_accepted, Accepted};
use crate::circuit_problem::read;
use crate::circuit_sample::Sample;
use crate::circuit_telling::{circuit_tellings, newer_refused, older_refused, CIRCUIT_INDEX_HEAD};
use crate::mutants::Rules;
use crate::stored::Stored;

/// Every made file. The three real circuits beside them are given.
pub fn circuit_stored() -> Vec<Stored> {
    let mut files = Vec::new();
    let mut index = REFUSED_HEAD.to_string();
    for sample in older_refused().into_iter().chain(newer_refused()) {
        index += &format!("{} {} {} {}\n", sample.name, sample.number, sample.place, sample.line);
        files.extend(pair("refusals", sample));
    }
    files.push(text("refusals/INDEX.txt", index));
    let mut index = READ_HEAD.to_string();
    for accepted in all_accepted() {
        index += &read_line(&accepted);
        files.extend(pair("read", accepted.sample));
    }
    files.push(text("read/INDEX.txt", index));
    let lines: String = circuit_tellings().iter().map(|telling| telling.line()).collect();
    files.push(text("mutants/INDEX.txt", CIRCUIT_INDEX_HEAD.to_string() + &lines));
    files
}

const REFUSED_HEAD: &str = "\
# One line for each refused pair, NAME.aag and NAME.lemmas (an empty lemma text has no file): its name, the number,
# the place in the text at fault, what it is.
";

const READ_HEAD: &str = "\
# One line for each pair that is read, NAME.aag and NAME.lemmas (an empty lemma text has no file): its name, what it
# is, and its problem in the notation of document 01, or the sizes of a long one.
";

fn text(path: &str, text: String) -> Stored {
    Stored { path: format!("circuits/{path}"), bytes: text.into_bytes() }
}

fn pair(folder: &str, sample: Sample) -> Vec<Stored> {
    let path = |kind: &str| format!("circuits/{folder}/{}.{kind}", sample.name);
    let mut files = vec![Stored { path: path("aag"), bytes: sample.circuit }];
    if !sample.lemmas.is_empty() {
        files.push(Stored { path: path("lemmas"), bytes: sample.lemmas });
    }
    files
}

fn read_line(accepted: &Accepted) -> String {
    let Accepted { sample, built } = accepted;
    let problem = read(&sample.circuit, &sample.lemmas, Rules::TRUE).expect("the pair is read");
    let sizes = format!("n {} m {} k {}", problem.n, problem.m, problem.k());
    let told = if built.is_empty() { sizes } else { problem.to_string() };
    format!("{}: {} [{told}]\n", sample.name, sample.line)
}
