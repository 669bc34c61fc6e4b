//! Puts one fault after another into the reader, checker, machine, desk, writer and sheet, and looks
//! whether generated jobs and tables, or the sweep's jobs, tell it from the faultless one.
//!
//! `faults [COUNT] [SEED]` prints for each fault its number, what it is, the shortest job that
//! catches it, the calls made, and what is seen without and with the fault, parted by tabs. Of a fault
//! in the writer it prints the seed of the tables and the room in place of job and calls, of one in
//! the desk or in the sheet `desk` or `sheet` in place of the calls. It fails if a fault is not caught.
#![forbid(unsafe_code)]

use std::process::ExitCode;

use second::generate::{Writing, calls_of, job, sweep, tables};
use second::observe::{Seen, observe};
use second::{Call, Refusal, desk, sheet, to_hex, write};
use second_faults::{ALL, Fault, Told};

/// A job, the calls made from its start, and what it comes to.
struct Case {
    job: Vec<u8>,
    calls: Vec<Call>,
    seen: Seen,
    lines: String,
    sheet: String,
}

impl Case {
    fn new(job: Vec<u8>, calls: Vec<Call>) -> Self {
        let (seen, lines, sheet) = (observe(&job, &calls), desk(&job), sheet(&job));
        Case { job, calls, seen, lines, sheet }
    }

    /// The job of a seed, and its calls.
    fn of(seed: u64) -> Self {
        let (_, job) = job(seed);
        let calls = calls_of(seed, &job);
        Case::new(job, calls)
    }
}

/// Whether one of the cases tells a fault; prints the first that does.
fn caught(fault: &Fault, cases: &[Case]) -> bool {
    let Fault { number, text, .. } = fault;
    for case in cases {
        let faulty = fault.observe(&case.job, &case.calls);
        if faulty != case.seen {
            let calls: Vec<String> = case.calls.iter().map(Call::to_string).collect();
            let (job, calls) = (to_hex(&case.job), calls.join(" "));
            println!("caught\t{number}\t{text}\t{job}\t{calls}\t{}\t{faulty}", case.seen);
            return true;
        }
    }
    println!("missed\t{number}\t{text}");
    false
}

/// The same for a fault in what is printed.
fn caught_by_text(
    fault: &Fault,
    what: &str,
    cases: &[Case],
    both: impl Fn(&Case) -> (&str, String),
) -> bool {
    let Fault { number, text, .. } = fault;
    for case in cases {
        let (printed, faulty) = both(case);
        if faulty != printed {
            let job = to_hex(&case.job);
            println!("caught\t{number}\t{text}\t{job}\t{what}\t{printed:?}\t{faulty:?}");
            return true;
        }
    }
    println!("missed\t{number}\t{text}");
    false
}

/// Tables of a seed, and what writing them gives.
struct Tables {
    seed: u64,
    writing: Writing,
    written: Result<Vec<u8>, Refusal>,
}

impl Tables {
    fn new(seed: u64) -> Self {
        let writing = tables(seed);
        let written = write(&writing.fields, writing.room);
        Tables { seed, writing, written }
    }
}

/// The same for a fault in the writer.
fn caught_by_tables(fault: &Fault, cases: &[Tables]) -> bool {
    let Fault { number, text, .. } = fault;
    let shown = |written: &Result<Vec<u8>, Refusal>| match written {
        Ok(bytes) => format!("written {}", to_hex(bytes)),
        Err(refusal) => refusal.to_string(),
    };
    for Tables { seed, writing, written } in cases {
        let faulty = fault.write(&writing.fields, writing.room);
        if faulty != *written {
            let (room, expected, got) = (writing.room, shown(written), shown(&faulty));
            println!("caught\t{number}\t{text}\ttables {seed}\t{room}\t{expected}\t{got}");
            return true;
        }
    }
    println!("missed\t{number}\t{text}");
    false
}

fn main() -> ExitCode {
    let mut numbers = std::env::args().skip(1).map(|text| text.parse().ok());
    let count = numbers.next().flatten().unwrap_or(10_000);
    let seed = numbers.next().flatten().unwrap_or(1);
    let mut cases: Vec<Case> = (seed..seed + count).map(Case::of).collect();
    cases.sort_by_key(|case| case.job.len());
    let swept: Vec<Case> = sweep().into_iter().map(|job| Case::new(job, Vec::new())).collect();
    let tables: Vec<Tables> = (seed..seed + count).map(Tables::new).collect();
    let is_caught = |fault: &&Fault| match fault.told {
        Told::Jobs => caught(fault, &cases),
        Told::Sweep => caught(fault, &swept),
        Told::Lines => {
            caught_by_text(fault, "desk", &cases, |case| (&case.lines, fault.desk(&case.job)))
        }
        Told::Tables => caught_by_tables(fault, &tables),
        Told::Sheets => {
            caught_by_text(fault, "sheet", &cases, |case| (&case.sheet, fault.sheet(&case.job)))
        }
    };
    let missed = ALL.iter().filter(|fault| !is_caught(fault)).count();
    println!("{} caught, {missed} missed", ALL.len() - missed);
    ExitCode::from((missed > 0) as u8)
}
