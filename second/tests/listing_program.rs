//! The proved listing program beside this one's, on every stored file: both must print the same text. The environment variable TRIM_LIST names
//! the script that runs the proved program (driver/build makes it); the gate always names it.

use std::ffi::OsStr;
use std::fs;
use std::io::Write;
use std::path::{Path, PathBuf};
use std::process::{Command, Stdio};
use std::sync::Mutex;
use std::thread;

/// What a program prints for this standard input.
fn printed(program: &OsStr, input: &[u8]) -> Vec<u8> {
    let mut child =
        Command::new(program).stdin(Stdio::piped()).stdout(Stdio::piped()).spawn().expect("the program starts");
    let mut stdin = child.stdin.take().expect("its standard input");
    // A program that has read enough closes its end; that is no fault.
    let _ = stdin.write_all(input);
    drop(stdin);
    child.wait_with_output().expect("the program ends").stdout
}

fn problem_files(folder: &Path, found: &mut Vec<PathBuf>) {
    for entry in fs::read_dir(folder).expect("a folder") {
        let path = entry.expect("an entry").path();
        if path.is_dir() {
            problem_files(&path, found);
        } else if path.extension() == Some(OsStr::new("problem")) {
            found.push(path);
        }
    }
}

#[test]
fn both_listing_programs_print_the_same_text() {
    let Some(proved) = std::env::var_os("TRIM_LIST") else {
        assert!(std::env::var_os("GATE").is_none(), "the gate names the listing program");
        return;
    };
    let mut files = Vec::new();
    problem_files(&Path::new(env!("CARGO_MANIFEST_DIR")).join("../cases"), &mut files);
    assert!(files.len() > 100 && files.iter().any(|path| path.ends_with("ledger.problem")));
    // The longest files first, two at a time.
    files.sort_by_key(|path| fs::metadata(path).expect("a file").len());
    let left = Mutex::new(files);
    let next = || left.lock().expect("no turn fails while it holds the list").pop();
    let turn = || {
        while let Some(path) = next() {
            let input = fs::read(&path).expect("a file");
            let second = printed(OsStr::new(env!("CARGO_BIN_EXE_second_list")), &input);
            assert_eq!(printed(&proved, &input), second, "{}", path.display());
        }
    };
    thread::scope(|scope| {
        scope.spawn(turn);
        scope.spawn(turn);
    });
    let long = vec![0; 65_537];
    assert_eq!(printed(&proved, &long), b"bad 1 0\n");
}
