//! What a job comes to: its printed lines, its refusal, how it runs.

use second::{Machine, Outcome, Refusal, check, desk};

pub fn prints(job: &[u8], lines: &str) {
    assert_eq!(desk(job), lines);
}

pub fn refused(job: &[u8], number: u32, place: u32) {
    assert_eq!(check(job).err(), Some(Refusal { number, place }));
}

/// A run with so many steps for each thread: how it ends, and the steps of all.
pub fn run(machine: &mut Machine, each: u64) -> (Outcome, u64) {
    let run = machine.run([each; 8]);
    (run.outcome, run.counts.iter().sum())
}

pub fn runs(job: &[u8], outcome: Outcome, steps: u64) {
    assert_eq!(run(&mut Machine::start(job).unwrap(), 100_000), (outcome, steps));
}
