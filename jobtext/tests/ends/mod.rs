//! How runs of a job end, to be held against those of another job.

use second::value::THREADS;
use second::{Job, Machine, Run, Value};

/// A run that allows each thread so many steps, the value at its end, and the cells but for one.
pub fn end_of_run(job: &Job, steps: u64, but: usize) -> (Run, Option<Value>, Vec<Value>) {
    let mut machine = Machine::start(&second::bytes_of(job)).expect("a job that starts");
    let run = machine.run([steps; THREADS]);
    let cells = machine.cells().iter().enumerate().filter(|(cell, _)| *cell != but);
    (run, machine.result(), cells.map(|(_, &value)| value).collect())
}
