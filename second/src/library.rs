//! The proved library through its C interface, in a process of its own: the library is built for x86-64, and this program for the processor
//! at hand. Only this file knows how the library is called; driver/driver.c is the other end.

use crate::circuit_call::CircuitSubject;
use crate::circuit_jobs::CircuitJob;
use crate::jobs::{Job, Report};
use crate::subject::Subject;
use std::cell::RefCell;
use std::io::{Read, Write};
use std::process::{Child, ChildStdin, ChildStdout, Command, Stdio};

/// A running driver.
pub struct Library {
    pipes: RefCell<(ChildStdin, ChildStdout)>,
    child: Child,
}

impl Library {
    /// The driver that the environment variable TRIM_DRIVER names, if it names one. `driver/build` makes it.
    pub fn started() -> Option<Library> {
        let path = std::env::var_os("TRIM_DRIVER")?;
        let mut child = Command::new(&path)
            .stdin(Stdio::piped())
            .stdout(Stdio::piped())
            .spawn()
            .unwrap_or_else(|error| panic!("{}: {error}", path.to_string_lossy()));
        let pipes = (child.stdin.take().expect("a pipe"), child.stdout.take().expect("a pipe"));
        Some(Library { pipes: RefCell::new(pipes), child })
    }
}

impl Drop for Library {
    fn drop(&mut self) {
        let _ = self.child.kill();
        let _ = self.child.wait();
    }
}

/// A request: the number of the job, the budget, then the file or both texts, and the lent bytes.
fn request(job: usize, [file, lemmas]: [&[u8]; 2], budget: u32, lent: &[u8]) -> Vec<u8> {
    let mut bytes = Vec::with_capacity(20 + file.len() + lemmas.len() + lent.len());
    for word in [job as u32, budget, file.len() as u32, lemmas.len() as u32, lent.len() as u32] {
        bytes.extend(word.to_le_bytes());
    }
    [file, lemmas, lent].into_iter().for_each(|part| bytes.extend(part));
    bytes
}

impl Library {
    fn answer(&self, request: &[u8], lent: &mut [u8]) -> Report {
        let mut pipes = self.pipes.borrow_mut();
        pipes.0.write_all(request).expect("the driver takes a request");
        pipes.0.flush().expect("the driver takes a request");
        let mut words = [0u8; 64];
        pipes.1.read_exact(&mut words).expect("the driver answers");
        pipes.1.read_exact(lent).expect("the driver answers");
        let half = |at: usize| u32::from_le_bytes(words[at..at + 4].try_into().expect("four bytes"));
        let word = |at: usize| u64::from_le_bytes(words[8 + 8 * at..16 + 8 * at].try_into().expect("eight bytes"));
        let (returned, kept) = (half(0), half(4));
        // The number comes twice, and nothing around the lent bytes may change: else this is no answer.
        let right = word(0) == returned as u64 && kept == 1;
        let number = if right { word(0) } else { u64::MAX };
        Report { number, place: word(1), decisions: word(2), rows: word(3), n: word(4), m: word(5), k: word(6) }
    }
}

impl Subject for Library {
    fn name(&self) -> String {
        "the library".to_string()
    }

    fn call(&self, job: Job, file: &[u8], budget: u32, lent: &mut [u8]) -> Report {
        self.answer(&request(job as usize, [file, &[]], budget, lent), lent)
    }
}

impl CircuitSubject for Library {
    fn circuit_call(&self, job: CircuitJob, texts: [&[u8]; 2], budget: u32, lent: &mut [u8]) -> Report {
        self.answer(&request(Job::ALL.len() + job as usize, texts, budget, lent), lent)
    }
}
