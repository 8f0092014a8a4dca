//! The stored files are what the generators make, every file has its line, and refusals are as stored.

use second::jobs::{call, Job, Report};
use second::mutants::Rules;
use second::stored::stored;
use std::fs;
use std::path::{Path, PathBuf};

fn cases() -> PathBuf {
    PathBuf::from(env!("CARGO_MANIFEST_DIR")).join("../cases")
}

fn names(folder: &Path) -> Vec<String> {
    let entries = fs::read_dir(folder).expect("the folder is there");
    let names = entries.map(|entry| entry.expect("an entry").file_name().into_string().expect("a name"));
    names.filter(|name| name.ends_with(".problem")).collect()
}

#[test]
fn stored_files_are_what_the_generators_make() {
    for file in stored() {
        let bytes = fs::read(cases().join(&file.path)).expect("the file is stored");
        assert!(bytes == file.bytes, "{} is not what make_cases writes", file.path);
    }
}

#[test]
fn every_file_has_a_line_that_says_what_it_is() {
    let text = |name: &str| fs::read_to_string(cases().join(name)).expect("the text is there");
    let lines = text("INDEX.txt") + &text("README.md");
    for name in names(&cases()) {
        assert!(lines.contains(&format!("{name}: ")) || lines.contains(&format!("`{name}`")), "{name}");
    }
    for folder in ["mutants", "refusals"] {
        let lines = text(&format!("{folder}/INDEX.txt"));
        for name in names(&cases().join(folder)) {
            let start = format!("{} ", name.trim_end_matches(".problem"));
            assert!(lines.lines().any(|line| line.starts_with(&start)), "{name}");
        }
    }
}

#[test]
fn refused_files_are_refused_by_every_job_as_stored() {
    let index = fs::read_to_string(cases().join("refusals/INDEX.txt")).expect("the index is there");
    let mut seen = [false; 9];
    for line in index.lines().filter(|line| !line.starts_with('#')) {
        let words: Vec<&str> = line.split(' ').collect();
        let file = fs::read(cases().join(format!("refusals/{}.problem", words[0]))).expect("the file");
        let number: u64 = words[1].parse().expect("a number");
        let place = words[2].parse().expect("a place");
        seen[number as usize] = true;
        for job in Job::ALL {
            let mut lent = [0xA5; 4];
            let report = call(job, &file, u32::MAX, &mut lent, Rules::TRUE);
            assert_eq!(report, Report { number, place, ..Report::default() }, "{line}");
            assert_eq!(lent, [0xA5; 4], "{line}");
        }
    }
    assert!(seen[1..].iter().all(|&seen| seen));
}
