//! Compares the proved code with the second implementation on the jobs of the sweep, and on generated
//! jobs and tables.
//!
//! `compare [COUNT] [SEED]` compares verdicts, tables, answers, rooms, the desk's lines, what is written,
//! and sheets; it fails on the first difference, and if something was not met that must be.
#![forbid(unsafe_code)]

mod generated;
mod runs;
mod sessions;
mod sheets;
mod sweep;
mod writing;

use std::process::ExitCode;

fn main() -> ExitCode {
    match compare::arguments() {
        Some([count, seed]) => generated::all(count.unwrap_or(20_000), seed.unwrap_or(1)),
        None => {
            eprintln!("usage: compare [COUNT] [SEED]");
            ExitCode::from(2)
        }
    }
}
