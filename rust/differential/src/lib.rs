//! What the differential tests share. Each test compares the library's answers, and every byte of
//! the memory that it was lent, with the reference; seeds are fixed, so that a failure repeats.

pub mod day;
pub mod faults;
pub mod framelog;
pub mod frames;
pub mod logs;
pub mod memory;
pub mod notice;
pub mod random;
pub mod reassembly;
pub mod records;
pub mod replay;
pub mod scene;
pub mod sfi;
pub mod sfi_memory;
pub mod sfi_tables;
pub mod tables;
pub mod traffic;
pub mod ubios;

use std::env;

/// How many random cases to try: `base`, times `HOURSQUALL_CASES` for a longer run.
pub fn cases(base: usize) -> usize {
    let Ok(factor) = env::var("HOURSQUALL_CASES") else {
        return base;
    };
    let factor: usize = factor.parse().expect("HOURSQUALL_CASES is a number");
    base * factor
}

/// Says how many cases a test compared; `cargo test -- --nocapture` shows it.
pub fn report(what: &str, compared: usize) {
    assert!(compared > 0, "{what}: nothing was compared");
    println!("{what}: {compared} cases");
}

/// Each of these answers was seen often enough, if `seen` has a number for each there can be.
fn assert_each(what: &str, seen: &[usize], answers: &[usize], least: usize) {
    for &answer in answers {
        let seen = seen[answer];
        assert!(seen >= least, "{what}: answer {answer}: {seen}");
        report(&format!("{what}, answer {answer}"), seen);
    }
    report(what, seen.iter().sum());
}
