//! The desk: what is printed for a job.

use crate::check::check;
use crate::job::{Kind, Refusal};
use crate::machine::{Machine, Outcome, Run, THREADS};

/// How much of the input the desk reads.
pub const INPUT: u64 = 16_384;
/// The steps that the desk allows each thread.
pub const STEPS: u64 = 100_000;

/// The lines that the desk prints for a job, each with its line end.
pub fn desk(job: &[u8]) -> String {
    let verdict = check(job).and_then(|accepted| Ok((accepted, Machine::start(job)?)));
    match verdict {
        Err(refusal) => refused(refusal),
        Ok((accepted, mut machine)) => format!(
            "accepted {:016x} {}\n{}\n",
            accepted.effect,
            accepted.kind.word(),
            run_line(&mut machine)
        ),
    }
}

/// The line of a refused job, with its line end.
pub fn refused(refusal: Refusal) -> String {
    format!("{refusal}\n")
}

/// The line of a run: thread 0's count, or that of the thread without room.
fn run_line(machine: &mut Machine) -> String {
    let Run { outcome, counts, thread } = machine.run([STEPS; THREADS]);
    let line = format!("{} {}", outcome.words(), counts[thread]);
    match machine.result() {
        Some(value) if outcome == Outcome::Done => {
            let number = match value.kind() {
                Kind::Number => format!(" {}", value.data()),
                _ => String::new(),
            };
            format!("{line} {}{number}", value.kind().word())
        }
        _ => line,
    }
}
