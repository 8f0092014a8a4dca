//! The proved library through its C interface.

extern "C" {
    fn trim_check(file: *const u8, file_len: usize, report: *mut u64) -> u32;
    fn trim_largest(file: *const u8, file_len: usize, budget: u32, marks: *mut u8, marks_len: usize, report: *mut u64) -> u32;
    fn trim_one(file: *const u8, file_len: usize, budget: u32, marks: *mut u8, marks_len: usize, report: *mut u64) -> u32;
    fn trim_list(file: *const u8, file_len: usize, budget: u32, rows: *mut u8, rows_len: usize, report: *mut u64) -> u32;
    fn trim_circuit_check(circuit: *const u8, circuit_len: usize, lemmas: *const u8, lemmas_len: usize, report: *mut u64) -> u32;
}

use second::jobs::Job;

/// Does a job, and gives its report: number, place, decisions, rows, n, m, k.
pub fn call(job: Job, file: &[u8], budget: u32, lent: &mut [u8]) -> [u64; 7] {
    let (bytes, len) = (file.as_ptr(), file.len());
    let (space, room) = (lent.as_mut_ptr(), lent.len());
    let mut report = [0u64; 7];
    let words = report.as_mut_ptr();
    // SAFETY: each pointer goes with the length of its own slice, the slices do not meet, and the report has seven words.
    unsafe {
        match job {
            Job::Check => trim_check(bytes, len, words),
            Job::Largest => trim_largest(bytes, len, budget, space, room, words),
            Job::One => trim_one(bytes, len, budget, space, room, words),
            Job::List => trim_list(bytes, len, budget, space, room, words),
        };
    }
    report
}

/// Checks a circuit and its lemmas, and gives the report.
pub fn circuit_check(circuit: &[u8], lemmas: &[u8]) -> [u64; 7] {
    let mut report = [0u64; 7];
    // SAFETY: each pointer goes with the length of its own slice, and the report has seven words.
    unsafe { trim_circuit_check(circuit.as_ptr(), circuit.len(), lemmas.as_ptr(), lemmas.len(), report.as_mut_ptr()) };
    report
}
